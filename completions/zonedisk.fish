# Completes the words of zonedisk in fish. The manual page says how to install this file.

complete -c zonedisk -f
complete -c zonedisk -l help -d 'Shows the options'
complete -c zonedisk -n __fish_use_subcommand -l version -d 'Shows the version'

complete -c zonedisk -n __fish_use_subcommand -a format -d 'Makes a fresh drive in a file'
complete -c zonedisk -n __fish_use_subcommand -a run -d 'Answers the trace on standard input'
complete -c zonedisk -n __fish_use_subcommand -a nbd -d 'Serves the drive in a file by the Network Block Device protocol'
complete -c zonedisk -n __fish_use_subcommand -a report -d 'Shows the zones of the drive in a file'
complete -c zonedisk -n __fish_use_subcommand -a check -d 'Shows each fault of the drive in a file'
complete -c zonedisk -n __fish_use_subcommand -a plan -d 'Shows what numbers of logical blocks cost on a drive'
complete -c zonedisk -n __fish_use_subcommand -a info -d 'Shows what the drive in a file is'
complete -c zonedisk -n __fish_use_subcommand -a export -d 'Writes the logical blocks to standard output'
complete -c zonedisk -n __fish_use_subcommand -a import -d 'Writes standard input to the logical blocks'
complete -c zonedisk -n __fish_use_subcommand -a convert -d 'Puts a drive into a file of the other kind'
complete -c zonedisk -n __fish_use_subcommand -a rescue -d 'Gives the disk of a drive that is broken in part'
complete -c zonedisk -n __fish_use_subcommand -a repair -d 'Repairs zones that end in something foreign'
complete -c zonedisk -n __fish_use_subcommand -a nvme -d 'Submits the raw entries on standard input'
complete -c zonedisk -n __fish_use_subcommand -a entry -d 'Shows the raw line of one NVMe command'
complete -c zonedisk -n __fish_use_subcommand -a fresh -d 'Answers a trace over a fresh drive in memory'
complete -c zonedisk -n __fish_use_subcommand -a fresh-raw -d 'Submits raw entries to a fresh drive in memory'
complete -c zonedisk -n __fish_use_subcommand -a help -d 'Shows the options of a subcommand'

# The file of a drive, and its disk.
complete -c zonedisk -n '__fish_seen_subcommand_from format run nbd report check plan info export import convert rescue repair nvme' -l image -r -F -d 'The file with the drive or its image'
complete -c zonedisk -n '__fish_seen_subcommand_from format run nbd report check info export import rescue repair nvme' -l device -r -F -d 'A real drive, by its character device'
complete -c zonedisk -n '__fish_seen_subcommand_from run nbd check plan import rescue fresh' -l blocks -x -d 'Logical blocks'
complete -c zonedisk -n '__fish_seen_subcommand_from format' -l force -d 'Replaces a file that is no image'
complete -c zonedisk -n '__fish_seen_subcommand_from repair' -l force -d 'Repairs the zones'
complete -c zonedisk -n '__fish_seen_subcommand_from format' -l in-place -d 'Makes a new drive that stays in its file'

# The shape of a drive.
complete -c zonedisk -n '__fish_seen_subcommand_from format plan fresh fresh-raw' -l block -x -a '512 4096' -d 'Bytes in a block'
complete -c zonedisk -n '__fish_seen_subcommand_from format plan fresh fresh-raw' -l zones -x -d 'Zones'
complete -c zonedisk -n '__fish_seen_subcommand_from format plan fresh fresh-raw' -l size -x -d "Blocks in a zone's addresses"
complete -c zonedisk -n '__fish_seen_subcommand_from format plan fresh fresh-raw' -l capacity -x -d 'Blocks in a zone that take writes'
complete -c zonedisk -n '__fish_seen_subcommand_from format plan fresh fresh-raw' -l transfer -x -d 'Blocks in a transfer at most'
complete -c zonedisk -n '__fish_seen_subcommand_from format plan fresh fresh-raw' -l active -x -d 'Zones active at once at most'
complete -c zonedisk -n '__fish_seen_subcommand_from format plan fresh fresh-raw' -l open -x -d 'Zones open at once at most'

# Runs and sessions.
complete -c zonedisk -n '__fish_seen_subcommand_from run' -l zones -d 'Shows the zones after the replies'
complete -c zonedisk -n '__fish_seen_subcommand_from fresh' -l report -d 'Shows the zones after the replies'
complete -c zonedisk -n '__fish_seen_subcommand_from run nbd fresh' -l statistics -d 'Shows what was written and moved'
complete -c zonedisk -n '__fish_seen_subcommand_from nbd' -l idle -d 'Takes a turn of cleaning after each request'
complete -c zonedisk -n '__fish_seen_subcommand_from run nvme' -l sync -d 'Sends a reply once the changes are on the disk'
complete -c zonedisk -n '__fish_seen_subcommand_from run nbd' -l read-only -d 'Changes nothing in the file'
complete -c zonedisk -n '__fish_seen_subcommand_from nvme' -l explain -d 'Says what the status of each completion is'
complete -c zonedisk -n '__fish_seen_subcommand_from run nbd nvme fresh fresh-raw' -l habit -x -a 'lazy closing strict' -d 'Which zones the drive closes by itself'
complete -c zonedisk -n '__fish_seen_subcommand_from run nbd fresh' -l stop-after -x -d 'Stops the drive after so many commands'
complete -c zonedisk -n '__fish_seen_subcommand_from run nbd fresh' -l tear -x -d 'Writes so many blocks of the Append at the stop'
complete -c zonedisk -n '__fish_seen_subcommand_from nbd' -l forget -x -d 'Lets the disk forget what is not synced, by this seed'
complete -c zonedisk -n '__fish_seen_subcommand_from nbd' -l odds -x -d 'Percent of the pending blocks that a power cut loses'
complete -c zonedisk -n '__fish_seen_subcommand_from nbd' -l cut-after -x -d 'Cuts the power after so many requests'
complete -c zonedisk -n '__fish_seen_subcommand_from nbd' -l fail -x -d 'Lets requests fail by chance, by this seed'
complete -c zonedisk -n '__fish_seen_subcommand_from nbd' -l fail-odds -x -d 'Percent of the requests that fail'

# What is shown.
complete -c zonedisk -n '__fish_seen_subcommand_from report entry' -l state -x -a 'Empty ImplicitlyOpened ExplicitlyOpened Closed ReadOnly Full Offline' -d 'Zones in this state'
complete -c zonedisk -n '__fish_seen_subcommand_from report' -l brief -d 'Shows a line for each state'
complete -c zonedisk -n '__fish_seen_subcommand_from report check plan info' -l json -d 'Shows it as JSON'
complete -c zonedisk -n '__fish_seen_subcommand_from report plan' -l svg -d 'Draws it as SVG'
complete -c zonedisk -n '__fish_seen_subcommand_from plan' -l share -x -d 'Percent of the greatest number of logical blocks'
complete -c zonedisk -n '__fish_seen_subcommand_from plan' -l amplification -x -d 'The greatest write amplification'
complete -c zonedisk -n '__fish_seen_subcommand_from plan' -l bytes -x -d 'Bytes for which a drive is made'

# Copies.
complete -c zonedisk -n '__fish_seen_subcommand_from export import' -l first -x -d 'The first logical block'
complete -c zonedisk -n '__fish_seen_subcommand_from export' -l count -x -d 'How many logical blocks'
complete -c zonedisk -n '__fish_seen_subcommand_from import' -l sparse -d 'Trims blocks that are all zeros'
complete -c zonedisk -n '__fish_seen_subcommand_from convert' -l to -r -F -d 'The new file'
complete -c zonedisk -n '__fish_seen_subcommand_from rescue' -l to -r -F -d 'A new drive for the blocks'
complete -c zonedisk -n '__fish_seen_subcommand_from rescue' -l json -r -F -d 'A new file for the lists'
complete -c zonedisk -n '__fish_seen_subcommand_from run export import rescue' -l progress -d 'Says how far it is'

# Entries.
complete -c zonedisk -n '__fish_seen_subcommand_from entry' -a 'append read write flush close finish open reset offline report'
complete -c zonedisk -n '__fish_seen_subcommand_from entry' -l start -x -d 'The address'
complete -c zonedisk -n '__fish_seen_subcommand_from entry' -l blocks -x -d 'Blocks of an append, a read or a write'
complete -c zonedisk -n '__fish_seen_subcommand_from entry' -l dwords -x -d 'Dwords of the buffer of a report'
complete -c zonedisk -n '__fish_seen_subcommand_from entry' -l id -x -d 'The command identifier'
complete -c zonedisk -n '__fish_seen_subcommand_from entry' -l all -d 'All zones'
complete -c zonedisk -n '__fish_seen_subcommand_from entry' -l partial -d 'Counts only the zones that follow'
complete -c zonedisk -n '__fish_seen_subcommand_from entry' -l data -x -d 'Two hexadecimal digits for each byte'
