#compdef afdx afdx-capture afdx-report afdx-campaign afdx-icd afdx-fill afdx-traffic afdx-taps
# Completes the words of `afdx` and of its tools in zsh. `bin/install PREFIX` puts it at
# PREFIX/share/zsh/site-functions/_afdx; where zsh doesn't look there, put that folder into `fpath`.

local help='(- *)--help[print help and leave]'
local version='(- *)--version[print the version and leave]'

# The names of the systems of the configuration that was given: byte by byte, so that no other can
# stand in a name; of a configuration's greatest size.
_afdx_systems() {
    local file=${(Q)line[1]}
    local -a names
    if [[ ! -f $file || ! -r $file ]] return 1
    names=(${(f)"$(head -c 4194304 <"$file" | LC_ALL=C sed 's/#.*//' |
        LC_ALL=C grep -aoE '\bname[[:blank:]]*=[[:blank:]]*"[A-Za-z0-9]{1,16}"' |
        cut -d '"' -f 2)"})
    compadd -a names
}

_afdx_of_commands() { # TOOL COMMAND.. : the first word is one of the commands
    local tool=$1 command line state
    shift
    _arguments -C $help $version "1:command:($*)" '*::word:->words'
    if [[ $state == words ]]; then
        command=$words[1]
        _afdx_takes "$tool $command"
    fi
}

# printed by bin/pages
_afdx_commands_of() { # TOOL : what its first word may be
    case $1 in
        afdx) commands=(check conform explain list police replay send solve) ;;
        afdx-capture) commands=(list pcap annotate) ;;
    esac
}

_afdx_takes() { # COMMAND
    case $1 in
    'afdx check')
        _arguments '--all[Prints each line that is false]' \
            '--margins[Prints of each link at each port the bound there and its latency]' \
            '--explain=-[When a fault is explained, behind its one line]:: :(auto always never)' \
            $help \
            ':config:_files -g "*.toml(-.)"'
        ;;
    'afdx conform')
        _arguments '--slack=[By how many ns a stamp may be off]:ns:' \
            '--between=[By how many ns more a stamp of LEFT may be off]:ns:' \
            '--drift=[By how many millionths the rates of the switch'\''s clock and of the recorders'\'' may differ]:ppm:' \
            '--inner=[How many ns a frame may take inside beyond its link'\''s latency]:ns:' \
            '--asked=[By how many ns later than its last bit a frame'\''s account may be asked]:ns:' \
            '--from=[There was traffic before this time, in ns]:ns:' \
            '--until=[The end of the recordings, in ns]:ns:' \
            '*--leave-out=[The link]:vl:' \
            '--exercised[Says '\''undecided'\'' if of a link at an output port that was recorded no frame is explained]' \
            '--switch=[The name of the switch that is judged]:name:' \
            '--senders[Judges the systems by what they sent, too]' \
            '--apart=[By how many ns later the copy of a frame may be sent]:ns:' \
            '*--interface=[Where the frames of interface K came in]:k=place:' \
            '*--left=[Where the frames of interface K left]:k=place:' \
            '--fcs=[Whether each recorded frame ends with its check sequence]: :(yes no)' \
            '--reorder=[By how many frames times of a recording may go back]:n:' \
            '--stamps=[Whether recorders stamp the end of a frame]: :(end start start-end end-start)' \
            '--lossy[Gives the last line though a recorder lost frames by its own word]' \
            '--explain=-[When a fault is explained, behind its one line]:: :(auto always never)' \
            '--line-buffered[Hands the text of each line over at once]' \
            '--progress[Says after two seconds how much was read]' \
            '--summary[Prints how much of each recording was left out]' \
            $help \
            ':config:_files -g "*.toml(-.)"' \
            ':came:_files -g "*.(list|pcap|pcapng)(-.)"' \
            '::left:_files -g "*.(list|pcap|pcapng)(-.)"'
        ;;
    'afdx explain')
        _arguments '--list[Prints each word and each form of a line]' \
            $help \
            '*:text:'
        ;;
    'afdx list')
        _arguments '*--interface=[Where the frames of interface K of the recording came in]:k=place:' \
            '--fcs=[Whether each frame of the recording ends with its check sequence]: :(yes no)' \
            '--origin=[The moment of the recording that is time 0]:ns:' \
            '--reorder=[By how many arrivals times of a recording may go back]:n:' \
            '--stamps=[Whether the recorder stamps the end of a frame]: :(end start)' \
            '--explain=-[When a fault is explained, behind its one line]:: :(auto always never)' \
            '--line-buffered[Hands the text of each line over at once]' \
            '--progress[Says after two seconds how much was read]' \
            '--summary[Prints the counts of the run on standard error]' \
            $help \
            ':config:_files -g "*.toml(-.)"' \
            ':list:_files -g "*.(pcap|pcapng)(-.)"' \
            '::list:_files -g "*.(pcap|pcapng)(-.)"'
        ;;
    'afdx police')
        _arguments '--vl=[The link'\''s identifier, 0 to 65535]:n:' \
            '--port=[The input port of its frames, 1 to 24]:n:' \
            '--lmin=[The least length of a frame in bytes, 64 to LMAX]:n:' \
            '--policing=[By bytes a frame is charged by its length]: :(byte frame)' \
            '*--interface=[Where the frames of interface K of the recording came in]:k=place:' \
            '--fcs=[Whether each frame of the recording ends with its check sequence]: :(yes no)' \
            '--origin=[The moment of the recording that is time 0]:ns:' \
            '--reorder=[By how many arrivals times of a recording may go back]:n:' \
            '--explain=-[When a fault is explained, behind its one line]:: :(auto always never)' \
            '--line-buffered[Hands the text of each line over at once]' \
            '--progress[Says after two seconds how much was read]' \
            '--summary[Prints the counts of the run on standard error]' \
            $help \
            ':bag_ms:(1 2 4 8 16 32 64 128)' \
            ':lmax:' \
            ':jitter_us:' \
            ':list:_files -g "*.(list|pcap|pcapng)(-.)"'
        ;;
    'afdx replay')
        _arguments '--no-admission[Replays also in tables that are not admitted]' \
            '--explain-drops[Prints on standard error]' \
            '*--interface=[Where the frames of interface K of the recording came in]:k=place:' \
            '--fcs=[Whether each frame of the recording ends with its check sequence]: :(yes no)' \
            '--origin=[The moment of the recording that is time 0]:ns:' \
            '--reorder=[By how many arrivals times of a recording may go back]:n:' \
            '--stamps=[Whether the recorder stamps the end of a frame]: :(end start)' \
            '--explain=-[When a fault is explained, behind its one line]:: :(auto always never)' \
            '--line-buffered[Hands the text of each line over at once]' \
            '--progress[Says after two seconds how much was read]' \
            '--summary[Prints the counts of the run on standard error]' \
            $help \
            ':config:_files -g "*.toml(-.)"' \
            ':list:_files -g "*.(list|pcap|pcapng)(-.)"' \
            '::list:_files -g "*.(pcap|pcapng)(-.)"'
        ;;
    'afdx send')
        _arguments '--explain=-[When a fault is explained, behind its one line]:: :(auto always never)' \
            '--line-buffered[Hands the text of each line over at once]' \
            '--progress[Says after two seconds how much was read]' \
            '--summary[Prints the counts of the run on standard error]' \
            $help \
            ':config:_files -g "*.toml(-.)"' \
            ':system:_afdx_systems' \
            ':submissions:_files -g "*.(list|messages)(-.)"'
        ;;
    'afdx solve')
        _arguments '--keep=[Keys that keep their values]: :_values -s , word jitter buffer latency skew' \
            '--raise-only[Lowers no value]' \
            '--apart=[By how many ns later one copy of a frame may be sent than the other]:ns:' \
            '--explain=-[When a fault is explained, behind its one line]:: :(auto always never)' \
            $help \
            ':config:_files -g "*.toml(-.)"'
        ;;
    'afdx-campaign')
        _arguments $help \
            $version \
            '--out=[the folder of the campaign]:dir:_path_files -/' \
            '--no-admission[also where the network isn'\''t admitted]' \
            '--pages[a page for each run too, pages/1 and so on]' \
            '(-j --jobs)'{-j,--jobs=}'[runs at a time]:n:' \
            '--resume[repeat the runs that have no result]' \
            '*'{-S,--sshlogin=}'[run on this machine too]:login:' \
            '--transfer[copy lists and configuration to those machines first]' \
            '*--interface=[where the frames of interface K came in]:k=place:' \
            '--taps=[a table of taps in the place of --interface]:file:_files -g "*.csv(-.)"' \
            '--fcs=[do recorded frames end with their check sequence]: :(yes no)' \
            '--origin=[the moment that is time 0, in ns since 1970]:ns:' \
            '--reorder=[how many arrivals in front of a frame may be later]:n:' \
            '--stamps=[whether stamps are those of a frame'\''s last bit or of its first]: :(end start start-end end-start)' \
            '--fail-on=[status 6 where one of these isn'\''t 0, with commas]: :_values -s , word silent contradicted clock twice late full-buffer too-old dropped unequal missing refused skew jitter first-number recorder-lost left-out unused claimed open uncertain unseen idle lost' \
            '--junit=[write the run and each criterion as a JUnit test case]:file:_files -g "*.xml(-.)"' \
            '--conform[report on a recorded switch]' \
            '--slack=[by how many ns a stamp may be off, with --conform]:ns:' \
            '--between=[by how many ns more one of LEFT is off]:ns:' \
            '--drift=[by how many millionths clocks may differ]:ppm:' \
            '--inner=[what a frame may take beyond its latency]:ns:' \
            '--asked=[how much later the account may be asked]:ns:' \
            '--until=[the end of the recordings, with --conform]:ns:' \
            '*--leave-out=[a link that isn'\''t judged, or other, with --conform]:vl:' \
            '--switch=[which of several switches is judged]:name:' \
            '*--left=[where the frames of interface K left]:k=place:' \
            '--lossy[also where the recorder lost frames]' \
            '--exercised[no verdict where a stream that is judged is idle]' \
            '--from=[what came before this is passed over]:ns:' \
            '--slices=[judge each recording in so many slices of time]:n:' \
            ':config:_files -g "*.toml(-.)"' \
            '*:list:_files -g "*.(list|pcap|pcapng)(-.)"'
        ;;
    'afdx-capture list')
        _arguments $help \
            '--config=[the configuration]:config:_files -g "*.toml(-.)"' \
            '*--interface=[where the frames of interface K came in]:k=place:' \
            '--taps=[a table of taps in the place of --interface]:file:_files -g "*.csv(-.)"' \
            '--fcs=[do recorded frames end with their check sequence]: :(yes no)' \
            '--origin=[the moment that is time 0, in ns since 1970]:ns:' \
            '--reorder=[how many arrivals in front of a frame may be later]:n:' \
            '--stamps=[whether stamps are those of a frame'\''s last bit or of its first]: :(end start)' \
            '(-o --out --split)'{-o,--out=}'[the list]:file:_files -g "*.list(-.)"' \
            '(-o --out)--split=[write lists PREFIX-1.list and so on]:prefix:_files -g "*.list(-.)"' \
            ':recording:_files -g "*.(pcap|pcapng)(-.)"' \
            '::recording:_files -g "*.(pcap|pcapng)(-.)"'
        ;;
    'afdx-capture pcap')
        _arguments $help \
            '--side=[only this network'\''s frames]: :(A B)' \
            '--fcs=[with each frame'\''s check sequence]: :(yes no)' \
            '--origin=[ns since 1970 of the list'\''s time 0]:ns:' \
            ':list:_files -g "*.list(-.)"' \
            ':recording:_files -g "*.(pcap|pcapng)(-.)"'
        ;;
    'afdx-capture annotate')
        _arguments $help \
            '--no-admission[also where the network isn'\''t admitted]' \
            '--conform=[what afdx conform said of this list]:file:' \
            '*--interface=[where the frames of interface K came in]:k=place:' \
            '--taps=[a table of taps in the place of --interface]:file:_files -g "*.csv(-.)"' \
            '--fcs=[do recorded frames end with their check sequence]: :(yes no)' \
            '--origin=[the moment that is time 0, in ns since 1970]:ns:' \
            '--reorder=[how many arrivals in front of a frame may be later]:n:' \
            '--stamps=[whether stamps are those of a frame'\''s last bit or of its first]: :(end start)' \
            ':config:_files -g "*.toml(-.)"' \
            ':list:_files -g "*.(list|pcap|pcapng)(-.)"' \
            ':recording:_files -g "*.(pcap|pcapng)(-.)"' \
            '::list:_files -g "*.(pcap|pcapng)(-.)"'
        ;;
    'afdx-fill')
        _arguments $help \
            $version \
            '--keep=[of jitter,buffer,latency,skew]: :_values -s , word jitter buffer latency skew' \
            '--raise-only[no value gets less than CONFIG has]' \
            ':config:_files -g "*.toml(-.)"' \
            ':filled:_files -g "*.toml(-.)"'
        ;;
    'afdx-icd')
        _arguments $help \
            $version \
            '--cables=[the table of the cables between switches]:cables.csv:_files -g "*.csv(-.)"' \
            '--profile=[2 has rates of 1000 Mbit/s]: :(1 2)' \
            '--fill[an empty cell that has to have a value has that of the cell above]' \
            '--raise[write it also where messages can'\''t be in time]' \
            '--reserve=[let latencies and buffer be so much more than is needed]:percent:' \
            '--apart=[by how many ns one copy of a frame may be sent later than the other]:ns:' \
            '--since=[an earlier configuration]:old:_files -g "*.toml(-.)"' \
            ':systems.csv:_files -g "*.csv(-.)"' \
            ':messages.csv:_files -g "*.csv(-.)"' \
            ':config:_files -g "*.toml(-.)"'
        ;;
    'afdx-report')
        _arguments $help \
            $version \
            '--out=[the folder for page, CSV and JSON]:dir:_path_files -/' \
            '--no-admission[also where the network isn'\''t admitted]' \
            '*--link=[a link with a time line]:vl:' \
            '--from=[where the time lines begin]:ns:' \
            '--rows=[links in the picture of latencies]:n:' \
            '--worst=[frames in the tables of the worst]:n:' \
            '--compare=[the report.json of a run to compare with]:other.json:_files -g "*.json(-.)"' \
            '--title=[the title of the page]:title:' \
            '--cover=[a cover from this TOML]:file:_files -g "*.toml(-.)"' \
            '--json[print the JSON instead of the text]' \
            '*--interface=[where the frames of interface K came in]:k=place:' \
            '--taps=[a table of taps in the place of --interface]:file:_files -g "*.csv(-.)"' \
            '--fcs=[do recorded frames end with their check sequence]: :(yes no)' \
            '--origin=[the moment that is time 0, in ns since 1970]:ns:' \
            '--reorder=[how many arrivals in front of a frame may be later]:n:' \
            '--stamps=[whether stamps are those of a frame'\''s last bit or of its first]: :(end start start-end end-start)' \
            '--fail-on=[status 6 where one of these isn'\''t 0, with commas]: :_values -s , word silent contradicted clock twice late full-buffer too-old dropped unequal missing refused skew jitter first-number recorder-lost left-out unused claimed lost' \
            '--junit=[write the run and each criterion as a JUnit test case]:file:_files -g "*.xml(-.)"' \
            '--conform[report on a recorded switch]' \
            '--slack=[by how many ns a stamp may be off, with --conform]:ns:' \
            '--between=[by how many ns more one of LEFT is off]:ns:' \
            '--drift=[by how many millionths clocks may differ]:ppm:' \
            '--inner=[what a frame may take beyond its latency]:ns:' \
            '--asked=[how much later the account may be asked]:ns:' \
            '--until=[the end of the recordings, with --conform]:ns:' \
            '*--leave-out=[a link that isn'\''t judged, or other, with --conform]:vl:' \
            '--switch=[which of several switches is judged]:name:' \
            '*--left=[where the frames of interface K left]:k=place:' \
            '--lossy[also where the recorder lost frames]' \
            '--exercised[no verdict where a stream that is judged is idle]' \
            '--senders[also judge the systems by what they sent]' \
            '--apart=[by how many ns later a copy may be sent]:ns:' \
            ':config:_files -g "*.toml(-.)"' \
            ':list:_files -g "*.(list|pcap|pcapng)(-.)"' \
            '::list:_files -g "*.(pcap|pcapng)(-.)"'
        ;;
    'afdx-taps')
        _arguments $help \
            $version \
            '--anyway[print the words also where they don'\''t agree]' \
            '--conform[print the words by which '\''afdx conform'\'' judges a switch]' \
            '--senders[those by which it judges the systems by what they sent]' \
            '--switch=[which of several switches is judged]:name:' \
            ':config:_files -g "*.toml(-.)"' \
            ':taps:_files -g "*.csv(-.)"' \
            ':recording:_files -g "*.(pcap|pcapng)(-.)"' \
            '::recording:_files -g "*.(pcap|pcapng)(-.)"'
        ;;
    'afdx-traffic')
        _arguments $help \
            $version \
            '--cables=[the table of the cables between switches]:cables.csv:_files -g "*.csv(-.)"' \
            '--profile=[2 has rates of 1000 Mbit/s]: :(1 2)' \
            '--fill[an empty cell that has to have a value has that of the cell above]' \
            '--seconds=[for how long]:s:' \
            '--seed=[messages begin by chance within their period]:n:' \
            '--config=[write frames too, as they are sent on this network]:config:_files -g "*.toml(-.)"' \
            ':systems.csv:_files -g "*.csv(-.)"' \
            ':messages.csv:_files -g "*.csv(-.)"' \
            ':folder:_path_files -/'
        ;;
    esac
}
# printed by bin/pages down to here

local -a commands
_afdx_commands_of $service
if ((${#commands})); then
    _afdx_of_commands $service $commands
else
    _afdx_takes $service
fi
