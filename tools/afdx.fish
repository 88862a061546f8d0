# Completes the words of `afdx` and of its tools in fish. `bin/install PREFIX` puts it below
# PREFIX/share/fish/vendor_completions.d; elsewhere:  source tools/afdx.fish

function __afdx_given --description 'Words behind the command that belong to no option'
    set -l place 2 # VALUED options.. : those that take a value
    set -l words (commandline -opc)
    set -l given
    while test $place -le (count $words)
        if contains -- $words[$place] $argv
            set place (math $place + 1)
        else if not string match -q -- '-?*' $words[$place]
            set -a given $words[$place]
        end
        set place (math $place + 1)
    end
    test (count $given) -gt 0; and printf '%s\n' $given
end

function __afdx_at --description 'Is the word the one of that number behind COMMAND (- for none)?'
    set -l given (__afdx_given $__afdx_valued)
    set -l before (commandline -opc)[-1]
    contains -- $before $__afdx_valued; and return 1
    string match -q -- '--*=*' (commandline -ct); and return 1
    if test $argv[1] != -
        test "$given[1]" = $argv[1]; or return 1
        set -e given[1]
    end
    test (count $given) -ge $argv[2] -a (count $given) -le $argv[3]
end

function __afdx_in --description 'Is the command one of these?'
    set -l given (__afdx_given $__afdx_valued)
    contains -- "$given[1]" $argv
end

function __afdx_systems --description 'The names of the systems of the configuration'
    # Byte by byte, so that no other can stand in a name; of a configuration's greatest size.
    set -l given (__afdx_given $__afdx_valued)
    test -f "$given[2]"; and test -r "$given[2]"; or return
    head -c 4194304 <$given[2] | LC_ALL=C sed 's/#.*//' |
        LC_ALL=C grep -aoE '\bname[[:blank:]]*=[[:blank:]]*"[A-Za-z0-9]{1,16}"' | cut -d '"' -f 2
end

function __afdx_list --description 'A list of these words, with commas, each once'
    set -l token (string replace -r -- '^--[a-z-]+=' '' (commandline -ct))
    set -l given (string split , -- $token)
    set -e given[-1]
    set -l before (string join '' -- $given,)
    for word in $argv
        contains -- $word $given; or echo "$before$word"
    end
end

function __afdx_files --description 'Folders, and files with one of these extensions'
    for end in $argv
        __fish_complete_suffix .$end | string match -r -- ".*(?:\.$end|/)(?:\t.*)?\$"
    end
end

# printed by bin/pages
set -g __afdx_valued --slack --between --drift --inner --asked --from --until --leave-out --switch \
    --apart --interface --left --fcs --reorder --stamps --origin --vl --port --lmin --policing \
    --keep --out -j --jobs -S --sshlogin --taps --fail-on --junit --slices --config -o --split \
    --side --conform --cables --profile --reserve --since --link --rows --worst --compare --title \
    --cover --seconds --seed

complete -c afdx -f
complete -c afdx -n '__afdx_at - 0 0' -l help -d 'Print help and leave'
complete -c afdx -n '__afdx_at - 0 0' -l version -d 'Print the version and leave'
complete -c afdx -n '__afdx_at - 0 0' -a check \
    -d 'Says whether a network is sure to keep its latencies'
complete -c afdx -n '__afdx_in check' -l all -d 'Prints each line that is false'
complete -c afdx -n '__afdx_in check' -l margins \
    -d 'Prints of each link at each port the bound there and its latency'
complete -c afdx -n '__afdx_in check' -l explain -a 'auto always never' \
    -d 'When a fault is explained, behind its one line'
complete -c afdx -n '__afdx_in check' -l help -d 'Print help'
complete -c afdx -n '__afdx_at check 0 0' -a '(__afdx_files toml)'
complete -c afdx -n '__afdx_at - 0 0' -a conform \
    -d 'Says whether a recorded switch did what its tables say'
complete -c afdx -n '__afdx_in conform' -x -l slack -d 'By how many ns a stamp may be off'
complete -c afdx -n '__afdx_in conform' -x -l between \
    -d 'By how many ns more a stamp of LEFT may be off'
complete -c afdx -n '__afdx_in conform' -x -l drift \
    -d 'By how many millionths the rates of the switch\'s clock and of the recorders\' may differ'
complete -c afdx -n '__afdx_in conform' -x -l inner \
    -d 'How many ns a frame may take inside beyond its link\'s latency'
complete -c afdx -n '__afdx_in conform' -x -l asked \
    -d 'By how many ns later than its last bit a frame\'s account may be asked'
complete -c afdx -n '__afdx_in conform' -x -l from -d 'There was traffic before this time, in ns'
complete -c afdx -n '__afdx_in conform' -x -l until -d 'The end of the recordings, in ns'
complete -c afdx -n '__afdx_in conform' -x -l leave-out -d 'The link'
complete -c afdx -n '__afdx_in conform' -l exercised \
    -d 'Says \'undecided\' if of a link at an output port that was recorded no frame is explained'
complete -c afdx -n '__afdx_in conform' -x -l switch -d 'The name of the switch that is judged'
complete -c afdx -n '__afdx_in conform' -l senders -d 'Judges the systems by what they sent, too'
complete -c afdx -n '__afdx_in conform' -x -l apart \
    -d 'By how many ns later the copy of a frame may be sent'
complete -c afdx -n '__afdx_in conform' -x -l interface \
    -d 'Where the frames of interface K came in'
complete -c afdx -n '__afdx_in conform' -x -l left -d 'Where the frames of interface K left'
complete -c afdx -n '__afdx_in conform' -x -l fcs -a 'yes no' \
    -d 'Whether each recorded frame ends with its check sequence'
complete -c afdx -n '__afdx_in conform' -x -l reorder \
    -d 'By how many frames times of a recording may go back'
complete -c afdx -n '__afdx_in conform' -x -l stamps -a 'end start start-end end-start' \
    -d 'Whether recorders stamp the end of a frame'
complete -c afdx -n '__afdx_in conform' -l lossy \
    -d 'Gives the last line though a recorder lost frames by its own word'
complete -c afdx -n '__afdx_in conform' -l explain -a 'auto always never' \
    -d 'When a fault is explained, behind its one line'
complete -c afdx -n '__afdx_in conform' -l line-buffered \
    -d 'Hands the text of each line over at once'
complete -c afdx -n '__afdx_in conform' -l progress -d 'Says after two seconds how much was read'
complete -c afdx -n '__afdx_in conform' -l summary \
    -d 'Prints how much of each recording was left out'
complete -c afdx -n '__afdx_in conform' -l help -d 'Print help'
complete -c afdx -n '__afdx_at conform 0 0' -a '(__afdx_files toml)'
complete -c afdx -n '__afdx_at conform 1 1' -a '(__afdx_files list pcap pcapng)'
complete -c afdx -n '__afdx_at conform 2 2' -a '(__afdx_files list pcap pcapng)'
complete -c afdx -n '__afdx_at - 0 0' -a explain \
    -d 'Says in plain words what a line of the program means'
complete -c afdx -n '__afdx_in explain' -l list -d 'Prints each word and each form of a line'
complete -c afdx -n '__afdx_in explain' -l help -d 'Print help'
complete -c afdx -n '__afdx_at - 0 0' -a list \
    -d 'Writes a recording as the frame list that says the same'
complete -c afdx -n '__afdx_in list' -x -l interface \
    -d 'Where the frames of interface K of the recording came in'
complete -c afdx -n '__afdx_in list' -x -l fcs -a 'yes no' \
    -d 'Whether each frame of the recording ends with its check sequence'
complete -c afdx -n '__afdx_in list' -x -l origin -d 'The moment of the recording that is time 0'
complete -c afdx -n '__afdx_in list' -x -l reorder \
    -d 'By how many arrivals times of a recording may go back'
complete -c afdx -n '__afdx_in list' -x -l stamps -a 'end start' \
    -d 'Whether the recorder stamps the end of a frame'
complete -c afdx -n '__afdx_in list' -l explain -a 'auto always never' \
    -d 'When a fault is explained, behind its one line'
complete -c afdx -n '__afdx_in list' -l line-buffered \
    -d 'Hands the text of each line over at once'
complete -c afdx -n '__afdx_in list' -l progress -d 'Says after two seconds how much was read'
complete -c afdx -n '__afdx_in list' -l summary \
    -d 'Prints the counts of the run on standard error'
complete -c afdx -n '__afdx_in list' -l help -d 'Print help'
complete -c afdx -n '__afdx_at list 0 0' -a '(__afdx_files toml)'
complete -c afdx -n '__afdx_at list 1 1' -a '(__afdx_files pcap pcapng)'
complete -c afdx -n '__afdx_at list 2 2' -a '(__afdx_files pcap pcapng)'
complete -c afdx -n '__afdx_at - 0 0' -a police -d 'Polices the frames of one virtual link'
complete -c afdx -n '__afdx_in police' -x -l vl -d 'The link\'s identifier, 0 to 65535'
complete -c afdx -n '__afdx_in police' -x -l port -d 'The input port of its frames, 1 to 24'
complete -c afdx -n '__afdx_in police' -x -l lmin \
    -d 'The least length of a frame in bytes, 64 to LMAX'
complete -c afdx -n '__afdx_in police' -x -l policing -a 'byte frame' \
    -d 'By bytes a frame is charged by its length'
complete -c afdx -n '__afdx_in police' -x -l interface \
    -d 'Where the frames of interface K of the recording came in'
complete -c afdx -n '__afdx_in police' -x -l fcs -a 'yes no' \
    -d 'Whether each frame of the recording ends with its check sequence'
complete -c afdx -n '__afdx_in police' -x -l origin \
    -d 'The moment of the recording that is time 0'
complete -c afdx -n '__afdx_in police' -x -l reorder \
    -d 'By how many arrivals times of a recording may go back'
complete -c afdx -n '__afdx_in police' -l explain -a 'auto always never' \
    -d 'When a fault is explained, behind its one line'
complete -c afdx -n '__afdx_in police' -l line-buffered \
    -d 'Hands the text of each line over at once'
complete -c afdx -n '__afdx_in police' -l progress -d 'Says after two seconds how much was read'
complete -c afdx -n '__afdx_in police' -l summary \
    -d 'Prints the counts of the run on standard error'
complete -c afdx -n '__afdx_in police' -l help -d 'Print help'
complete -c afdx -n '__afdx_at police 0 0' -a '1 2 4 8 16 32 64 128'
complete -c afdx -n '__afdx_at police 3 3' -a '(__afdx_files list pcap pcapng)'
complete -c afdx -n '__afdx_at - 0 0' -a replay \
    -d 'Replays a list of frames through the switches to the systems'
complete -c afdx -n '__afdx_in replay' -l no-admission \
    -d 'Replays also in tables that are not admitted'
complete -c afdx -n '__afdx_in replay' -l explain-drops -d 'Prints on standard error'
complete -c afdx -n '__afdx_in replay' -x -l interface \
    -d 'Where the frames of interface K of the recording came in'
complete -c afdx -n '__afdx_in replay' -x -l fcs -a 'yes no' \
    -d 'Whether each frame of the recording ends with its check sequence'
complete -c afdx -n '__afdx_in replay' -x -l origin \
    -d 'The moment of the recording that is time 0'
complete -c afdx -n '__afdx_in replay' -x -l reorder \
    -d 'By how many arrivals times of a recording may go back'
complete -c afdx -n '__afdx_in replay' -x -l stamps -a 'end start' \
    -d 'Whether the recorder stamps the end of a frame'
complete -c afdx -n '__afdx_in replay' -l explain -a 'auto always never' \
    -d 'When a fault is explained, behind its one line'
complete -c afdx -n '__afdx_in replay' -l line-buffered \
    -d 'Hands the text of each line over at once'
complete -c afdx -n '__afdx_in replay' -l progress -d 'Says after two seconds how much was read'
complete -c afdx -n '__afdx_in replay' -l summary \
    -d 'Prints the counts of the run on standard error'
complete -c afdx -n '__afdx_in replay' -l help -d 'Print help'
complete -c afdx -n '__afdx_at replay 0 0' -a '(__afdx_files toml)'
complete -c afdx -n '__afdx_at replay 1 1' -a '(__afdx_files list pcap pcapng)'
complete -c afdx -n '__afdx_at replay 2 2' -a '(__afdx_files pcap pcapng)'
complete -c afdx -n '__afdx_at - 0 0' -a send \
    -d 'Sends the messages of a list from one system, as a list for replay'
complete -c afdx -n '__afdx_in send' -l explain -a 'auto always never' \
    -d 'When a fault is explained, behind its one line'
complete -c afdx -n '__afdx_in send' -l line-buffered \
    -d 'Hands the text of each line over at once'
complete -c afdx -n '__afdx_in send' -l progress -d 'Says after two seconds how much was read'
complete -c afdx -n '__afdx_in send' -l summary \
    -d 'Prints the counts of the run on standard error'
complete -c afdx -n '__afdx_in send' -l help -d 'Print help'
complete -c afdx -n '__afdx_at send 0 0' -a '(__afdx_files toml)'
complete -c afdx -n '__afdx_at send 1 1' -a '(__afdx_systems)'
complete -c afdx -n '__afdx_at send 2 2' -a '(__afdx_files list messages)'
complete -c afdx -n '__afdx_at - 0 0' -a solve \
    -d 'Writes a network with the least values that keep its latencies'
complete -c afdx -n '__afdx_in solve' -x -l keep -a '(__afdx_list jitter buffer latency skew)' \
    -d 'Keys that keep their values'
complete -c afdx -n '__afdx_in solve' -l raise-only -d 'Lowers no value'
complete -c afdx -n '__afdx_in solve' -x -l apart \
    -d 'By how many ns later one copy of a frame may be sent than the other'
complete -c afdx -n '__afdx_in solve' -l explain -a 'auto always never' \
    -d 'When a fault is explained, behind its one line'
complete -c afdx -n '__afdx_in solve' -l help -d 'Print help'
complete -c afdx -n '__afdx_at solve 0 0' -a '(__afdx_files toml)'

complete -c afdx-campaign -f
complete -c afdx-campaign -l help -d 'show this help message and exit'
complete -c afdx-campaign -l version -d 'print the version and leave'
complete -c afdx-campaign -x -l out -a '(__fish_complete_directories)' \
    -d 'the folder of the campaign'
complete -c afdx-campaign -l no-admission -d 'also where the network isn\'t admitted'
complete -c afdx-campaign -l pages -d 'a page for each run too, pages/1 and so on'
complete -c afdx-campaign -x -s j -l jobs -d 'runs at a time'
complete -c afdx-campaign -l resume -d 'repeat the runs that have no result'
complete -c afdx-campaign -x -s S -l sshlogin -d 'run on this machine too'
complete -c afdx-campaign -l transfer -d 'copy lists and configuration to those machines first'
complete -c afdx-campaign -x -l interface -d 'where the frames of interface K came in'
complete -c afdx-campaign -x -l taps -a '(__afdx_files csv)' \
    -d 'a table of taps in the place of --interface'
complete -c afdx-campaign -x -l fcs -a 'yes no' \
    -d 'do recorded frames end with their check sequence'
complete -c afdx-campaign -x -l origin -d 'the moment that is time 0, in ns since 1970'
complete -c afdx-campaign -x -l reorder -d 'how many arrivals in front of a frame may be later'
complete -c afdx-campaign -x -l stamps -a 'end start start-end end-start' \
    -d 'whether stamps are those of a frame\'s last bit or of its first'
complete -c afdx-campaign -x -l fail-on \
    -a '(__afdx_list silent contradicted clock twice late full-buffer too-old dropped unequal missing refused skew jitter first-number recorder-lost left-out unused claimed open uncertain unseen idle lost)' \
    -d 'status 6 where one of these isn\'t 0, with commas'
complete -c afdx-campaign -x -l junit -a '(__afdx_files xml)' \
    -d 'write the run and each criterion as a JUnit test case'
complete -c afdx-campaign -l conform -d 'report on a recorded switch'
complete -c afdx-campaign -x -l slack -d 'by how many ns a stamp may be off, with --conform'
complete -c afdx-campaign -x -l between -d 'by how many ns more one of LEFT is off'
complete -c afdx-campaign -x -l drift -d 'by how many millionths clocks may differ'
complete -c afdx-campaign -x -l inner -d 'what a frame may take beyond its latency'
complete -c afdx-campaign -x -l asked -d 'how much later the account may be asked'
complete -c afdx-campaign -x -l until -d 'the end of the recordings, with --conform'
complete -c afdx-campaign -x -l leave-out -d 'a link that isn\'t judged, or other, with --conform'
complete -c afdx-campaign -x -l switch -d 'which of several switches is judged'
complete -c afdx-campaign -x -l left -d 'where the frames of interface K left'
complete -c afdx-campaign -l lossy -d 'also where the recorder lost frames'
complete -c afdx-campaign -l exercised -d 'no verdict where a stream that is judged is idle'
complete -c afdx-campaign -x -l from -d 'what came before this is passed over'
complete -c afdx-campaign -x -l slices -d 'judge each recording in so many slices of time'
complete -c afdx-campaign -n '__afdx_at - 0 0' -a '(__afdx_files toml)'
complete -c afdx-campaign -n '__afdx_at - 1 1000000' -a '(__afdx_files list pcap pcapng)'

complete -c afdx-capture -f
complete -c afdx-capture -n '__afdx_at - 0 0' -l help -d 'Print help and leave'
complete -c afdx-capture -n '__afdx_at - 0 0' -l version -d 'Print the version and leave'
complete -c afdx-capture -n '__afdx_at - 0 0' -a list \
    -d 'Writes the frame list that says the same as a recording, or as those of both'
complete -c afdx-capture -n '__afdx_in list' -l help -d 'show this help message and exit'
complete -c afdx-capture -n '__afdx_in list' -x -l config -a '(__afdx_files toml)' \
    -d 'the configuration'
complete -c afdx-capture -n '__afdx_in list' -x -l interface \
    -d 'where the frames of interface K came in'
complete -c afdx-capture -n '__afdx_in list' -x -l taps -a '(__afdx_files csv)' \
    -d 'a table of taps in the place of --interface'
complete -c afdx-capture -n '__afdx_in list' -x -l fcs -a 'yes no' \
    -d 'do recorded frames end with their check sequence'
complete -c afdx-capture -n '__afdx_in list' -x -l origin \
    -d 'the moment that is time 0, in ns since 1970'
complete -c afdx-capture -n '__afdx_in list' -x -l reorder \
    -d 'how many arrivals in front of a frame may be later'
complete -c afdx-capture -n '__afdx_in list' -x -l stamps -a 'end start' \
    -d 'whether stamps are those of a frame\'s last bit or of its first'
complete -c afdx-capture -n '__afdx_in list' -x -s o -l out -a '(__afdx_files list)' -d 'the list'
complete -c afdx-capture -n '__afdx_in list' -x -l split -a '(__afdx_files list)' \
    -d 'write lists PREFIX-1.list and so on'
complete -c afdx-capture -n '__afdx_at list 0 0' -a '(__afdx_files pcap pcapng)'
complete -c afdx-capture -n '__afdx_at list 1 1' -a '(__afdx_files pcap pcapng)'
complete -c afdx-capture -n '__afdx_at - 0 0' -a pcap \
    -d 'Writes a frame list, or what afdx send writes, as pcap with times in ns of'
complete -c afdx-capture -n '__afdx_in pcap' -l help -d 'show this help message and exit'
complete -c afdx-capture -n '__afdx_in pcap' -x -l side -a 'A B' -d 'only this network\'s frames'
complete -c afdx-capture -n '__afdx_in pcap' -x -l fcs -a 'yes no' \
    -d 'with each frame\'s check sequence'
complete -c afdx-capture -n '__afdx_in pcap' -x -l origin -d 'ns since 1970 of the list\'s time 0'
complete -c afdx-capture -n '__afdx_at pcap 0 0' -a '(__afdx_files list)'
complete -c afdx-capture -n '__afdx_at pcap 1 1' -a '(__afdx_files pcap pcapng)'
complete -c afdx-capture -n '__afdx_at - 0 0' -a annotate \
    -d 'Replays a frame list or recordings, and writes the frames as pcapng the lines'
complete -c afdx-capture -n '__afdx_in annotate' -l help -d 'show this help message and exit'
complete -c afdx-capture -n '__afdx_in annotate' -l no-admission \
    -d 'also where the network isn\'t admitted'
complete -c afdx-capture -n '__afdx_in annotate' -x -l conform \
    -d 'what afdx conform said of this list'
complete -c afdx-capture -n '__afdx_in annotate' -x -l interface \
    -d 'where the frames of interface K came in'
complete -c afdx-capture -n '__afdx_in annotate' -x -l taps -a '(__afdx_files csv)' \
    -d 'a table of taps in the place of --interface'
complete -c afdx-capture -n '__afdx_in annotate' -x -l fcs -a 'yes no' \
    -d 'do recorded frames end with their check sequence'
complete -c afdx-capture -n '__afdx_in annotate' -x -l origin \
    -d 'the moment that is time 0, in ns since 1970'
complete -c afdx-capture -n '__afdx_in annotate' -x -l reorder \
    -d 'how many arrivals in front of a frame may be later'
complete -c afdx-capture -n '__afdx_in annotate' -x -l stamps -a 'end start' \
    -d 'whether stamps are those of a frame\'s last bit or of its first'
complete -c afdx-capture -n '__afdx_at annotate 0 0' -a '(__afdx_files toml)'
complete -c afdx-capture -n '__afdx_at annotate 1 1' -a '(__afdx_files list pcap pcapng)'
complete -c afdx-capture -n '__afdx_at annotate 2 2' -a '(__afdx_files pcap pcapng)'
complete -c afdx-capture -n '__afdx_at annotate 3 3' -a '(__afdx_files pcap pcapng)'

complete -c afdx-fill -f
complete -c afdx-fill -l help -d 'show this help message and exit'
complete -c afdx-fill -l version -d 'print the version and leave'
complete -c afdx-fill -x -l keep -a '(__afdx_list jitter buffer latency skew)' \
    -d 'of jitter,buffer,latency,skew'
complete -c afdx-fill -l raise-only -d 'no value gets less than CONFIG has'
complete -c afdx-fill -n '__afdx_at - 0 0' -a '(__afdx_files toml)'
complete -c afdx-fill -n '__afdx_at - 1 1' -a '(__afdx_files toml)'

complete -c afdx-icd -f
complete -c afdx-icd -l help -d 'show this help message and exit'
complete -c afdx-icd -l version -d 'print the version and leave'
complete -c afdx-icd -x -l cables -a '(__afdx_files csv)' \
    -d 'the table of the cables between switches'
complete -c afdx-icd -x -l profile -a '1 2' -d '2 has rates of 1000 Mbit/s'
complete -c afdx-icd -l fill \
    -d 'an empty cell that has to have a value has that of the cell above'
complete -c afdx-icd -l raise -d 'write it also where messages can\'t be in time'
complete -c afdx-icd -x -l reserve -d 'let latencies and buffer be so much more than is needed'
complete -c afdx-icd -x -l apart \
    -d 'by how many ns one copy of a frame may be sent later than the other'
complete -c afdx-icd -x -l since -a '(__afdx_files toml)' -d 'an earlier configuration'
complete -c afdx-icd -n '__afdx_at - 0 0' -a '(__afdx_files csv)'
complete -c afdx-icd -n '__afdx_at - 1 1' -a '(__afdx_files csv)'
complete -c afdx-icd -n '__afdx_at - 2 2' -a '(__afdx_files toml)'

complete -c afdx-report -f
complete -c afdx-report -l help -d 'show this help message and exit'
complete -c afdx-report -l version -d 'print the version and leave'
complete -c afdx-report -x -l out -a '(__fish_complete_directories)' \
    -d 'the folder for page, CSV and JSON'
complete -c afdx-report -l no-admission -d 'also where the network isn\'t admitted'
complete -c afdx-report -x -l link -d 'a link with a time line'
complete -c afdx-report -x -l from -d 'where the time lines begin'
complete -c afdx-report -x -l rows -d 'links in the picture of latencies'
complete -c afdx-report -x -l worst -d 'frames in the tables of the worst'
complete -c afdx-report -x -l compare -a '(__afdx_files json)' \
    -d 'the report.json of a run to compare with'
complete -c afdx-report -x -l title -d 'the title of the page'
complete -c afdx-report -x -l cover -a '(__afdx_files toml)' -d 'a cover from this TOML'
complete -c afdx-report -l json -d 'print the JSON instead of the text'
complete -c afdx-report -x -l interface -d 'where the frames of interface K came in'
complete -c afdx-report -x -l taps -a '(__afdx_files csv)' \
    -d 'a table of taps in the place of --interface'
complete -c afdx-report -x -l fcs -a 'yes no' \
    -d 'do recorded frames end with their check sequence'
complete -c afdx-report -x -l origin -d 'the moment that is time 0, in ns since 1970'
complete -c afdx-report -x -l reorder -d 'how many arrivals in front of a frame may be later'
complete -c afdx-report -x -l stamps -a 'end start start-end end-start' \
    -d 'whether stamps are those of a frame\'s last bit or of its first'
complete -c afdx-report -x -l fail-on \
    -a '(__afdx_list silent contradicted clock twice late full-buffer too-old dropped unequal missing refused skew jitter first-number recorder-lost left-out unused claimed lost)' \
    -d 'status 6 where one of these isn\'t 0, with commas'
complete -c afdx-report -x -l junit -a '(__afdx_files xml)' \
    -d 'write the run and each criterion as a JUnit test case'
complete -c afdx-report -l conform -d 'report on a recorded switch'
complete -c afdx-report -x -l slack -d 'by how many ns a stamp may be off, with --conform'
complete -c afdx-report -x -l between -d 'by how many ns more one of LEFT is off'
complete -c afdx-report -x -l drift -d 'by how many millionths clocks may differ'
complete -c afdx-report -x -l inner -d 'what a frame may take beyond its latency'
complete -c afdx-report -x -l asked -d 'how much later the account may be asked'
complete -c afdx-report -x -l until -d 'the end of the recordings, with --conform'
complete -c afdx-report -x -l leave-out -d 'a link that isn\'t judged, or other, with --conform'
complete -c afdx-report -x -l switch -d 'which of several switches is judged'
complete -c afdx-report -x -l left -d 'where the frames of interface K left'
complete -c afdx-report -l lossy -d 'also where the recorder lost frames'
complete -c afdx-report -l exercised -d 'no verdict where a stream that is judged is idle'
complete -c afdx-report -l senders -d 'also judge the systems by what they sent'
complete -c afdx-report -x -l apart -d 'by how many ns later a copy may be sent'
complete -c afdx-report -n '__afdx_at - 0 0' -a '(__afdx_files toml)'
complete -c afdx-report -n '__afdx_at - 1 1' -a '(__afdx_files list pcap pcapng)'
complete -c afdx-report -n '__afdx_at - 2 2' -a '(__afdx_files pcap pcapng)'

complete -c afdx-taps -f
complete -c afdx-taps -l help -d 'show this help message and exit'
complete -c afdx-taps -l version -d 'print the version and leave'
complete -c afdx-taps -l anyway -d 'print the words also where they don\'t agree'
complete -c afdx-taps -l conform -d 'print the words by which \'afdx conform\' judges a switch'
complete -c afdx-taps -l senders -d 'those by which it judges the systems by what they sent'
complete -c afdx-taps -x -l switch -d 'which of several switches is judged'
complete -c afdx-taps -n '__afdx_at - 0 0' -a '(__afdx_files toml)'
complete -c afdx-taps -n '__afdx_at - 1 1' -a '(__afdx_files csv)'
complete -c afdx-taps -n '__afdx_at - 2 2' -a '(__afdx_files pcap pcapng)'
complete -c afdx-taps -n '__afdx_at - 3 3' -a '(__afdx_files pcap pcapng)'

complete -c afdx-traffic -f
complete -c afdx-traffic -l help -d 'show this help message and exit'
complete -c afdx-traffic -l version -d 'print the version and leave'
complete -c afdx-traffic -x -l cables -a '(__afdx_files csv)' \
    -d 'the table of the cables between switches'
complete -c afdx-traffic -x -l profile -a '1 2' -d '2 has rates of 1000 Mbit/s'
complete -c afdx-traffic -l fill \
    -d 'an empty cell that has to have a value has that of the cell above'
complete -c afdx-traffic -x -l seconds -d 'for how long'
complete -c afdx-traffic -x -l seed -d 'messages begin by chance within their period'
complete -c afdx-traffic -x -l config -a '(__afdx_files toml)' \
    -d 'write frames too, as they are sent on this network'
complete -c afdx-traffic -n '__afdx_at - 0 0' -a '(__afdx_files csv)'
complete -c afdx-traffic -n '__afdx_at - 1 1' -a '(__afdx_files csv)'
complete -c afdx-traffic -n '__afdx_at - 2 2' -a '(__fish_complete_directories)'
# printed by bin/pages down to here
