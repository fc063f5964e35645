# Completion of the command flow for fish.

# prints the command of flow on the line, as far as the current word
function __flow_command
    for word in (commandline -opc)[2..-1]
        if contains -- $word check draw kinds new run live script help
            echo $word
            return
        end
    end
end

# whether the command on the line is one of these; without a word, whether there is none
function __flow_is
    set -l command (__flow_command)
    if test (count $argv) -eq 0
        test -z "$command"
    else
        contains -- "$command" $argv
    end
end

# prints the first word of the line that is a file and belongs to no option
function __flow_file
    set -l before
    for word in (commandline -o)[2..-1]
        set word (string replace -r '^~/' "$HOME/" -- $word)
        if test -f "$word"; and not string match -q -- '-*' $word; and not contains -- "$before" -i --input --marks -o --output --tags --format --stats-every --trace --trace-size --control --replies
            echo $word
            return
        end
        set before $word
    end
end

# prints the names of the blocks of a kind, as far as a look at the lines of the graph file tells
function __flow_blocks --argument-names kind
    set -l file (__flow_file)
    test -n "$file"; or return
    awk -v wanted=$kind '{
        sub(/#.*/, "")
        while (match($0, /[{]|\[\[|(name|kind)[ \t]*=[ \t]*["\047][^"\047]*["\047]/)) {
            part = substr($0, RSTART, RLENGTH)
            $0 = substr($0, RSTART + RLENGTH)
            value = part
            gsub(/^[^"\047]*["\047]|["\047]$/, "", value)
            if (part !~ /=/) name = kind = ""
            else if (part ~ /^name/) name = value
            else kind = value
            if (name != "" && kind == wanted) { print name; name = kind = "" }
        }
    }' $file 2>/dev/null
end

# prints what may stand behind an option that takes BLOCK=PATH with a block of the kind
function __flow_ends --argument-names kind
    set -l word (string replace -r -- '^(--[a-z]+=|-[io])' '' (commandline -ct))
    if string match -q -- '*=*' $word
        set -l block (string replace -r -- '=.*' '' $word)
        __fish_complete_path (string replace -r -- '^[^=]*=' '' $word) | string replace -r -- '^' "$block="
    else
        __flow_blocks $kind | string replace -r -- '$' =
    end
end

complete -c flow -n 'not __flow_is check draw new run live script' -f
complete -c flow -n __flow_is -a check -d 'Reads the graph and reports on it'
complete -c flow -n __flow_is -a draw -d 'Writes the graph as text from which a picture is made'
complete -c flow -n __flow_is -a kinds -d 'Prints all kinds of blocks, with their parameters'
complete -c flow -n __flow_is -a new -d 'Writes a graph file to start from'
complete -c flow -n __flow_is -a run -d 'Runs the graph and prints what its sinks hold'
complete -c flow -n __flow_is -a live -d 'Runs the graph while the commands of standard input are done'
complete -c flow -n __flow_is -a script -d 'Runs the commands of standard input on the graph'
complete -c flow -n __flow_is -a help -d 'Print this message or the help of the given subcommand(s)'
complete -c flow -n '__flow_is help' -a 'check draw kinds new run live script'
# (scripts/generate writes the names of the kinds here)
complete -c flow -n '__flow_is kinds new' -a 'vector_source vector_sink null_sink add_const multiply_const divide_const and_const or_const xor_const scale clip abs not mute add sub multiply divide minimum maximum and or xor sample_and_hold map_bb table convert binary_slicer ulaw_encode alaw_encode moving_sum fir interp_fir keep_one_in_n keep_m_in_n integrate frame_minimum frame_maximum argmax repeat insert pattern counter permute interleave deinterleave stream_mux head skiphead delay pack_k_bits unpack_k_bits repack_bits packed_to_unpacked unpacked_to_packed diff_encoder diff_decoder scrambler descrambler additive_scrambler correlate_access_code crc_append crc_check state_machine viterbi'
complete -c flow -n 'not __flow_is help' -s h -l help -d 'Print help'
complete -c flow -n __flow_is -s V -l version -d 'Print version'
complete -c flow -n '__flow_is check draw run live script' -l explain -f -a 'auto always never' -d 'Shows where the fault is; automatic on a terminal'
complete -c flow -n '__flow_is check' -l feeds -d 'Tests the feeds too, as a run would'
complete -c flow -n '__flow_is check' -l slices -d 'Tells how a run is cut into slices of time'
complete -c flow -n '__flow_is draw' -l format -x -a 'dot mermaid' -d 'The language of the text'
complete -c flow -n '__flow_is run live' -s q -l quiet -d 'Shows neither progress nor why a run stalled'
complete -c flow -n '__flow_is run' -l one-thread -d 'Runs all blocks on one thread'
complete -c flow -n '__flow_is run' -l thread-per-block -d 'Runs each block in a thread of its own'
complete -c flow -n '__flow_is run live' -l stats -f -a 'text json' -d 'Tells where the time of the run went'
complete -c flow -n '__flow_is run live' -l stats-every -x -d 'Tells it while the run goes on too, after so many seconds each'
complete -c flow -n '__flow_is run live' -l trace -r -F -d 'Writes each turn and each wait of a block to a file, as a trace'
complete -c flow -n '__flow_is run live' -l trace-size -x -d 'Keeps at most N turns and waits in the trace'
complete -c flow -n '__flow_is run live' -l big-endian -d 'Raw items have their highest byte first'
complete -c flow -n '__flow_is run live' -s i -l input -x -a '(__flow_ends vector_source)' -d 'Feeds the raw items of a file to a source'
complete -c flow -n '__flow_is run live' -l marks -x -a '(__flow_ends vector_source)' -d 'Puts tags on the items of an input, a line each'
complete -c flow -n '__flow_is run live' -s o -l output -x -a '(__flow_ends vector_sink)' -d 'Writes the items of a sink to a file, raw'
complete -c flow -n '__flow_is run live' -l tags -x -a '(__flow_ends vector_sink)' -d 'Writes the tags of a sink to a file, a line each'
complete -c flow -n '__flow_is run' -l slice -x -d 'Runs only slice J of N of the input'
complete -c flow -n '__flow_is run' -l from -x -d 'Writes the items of each output from this one on'
complete -c flow -n '__flow_is run' -l items -x -d 'Writes so many items of each output'
complete -c flow -n '__flow_is run' -l resume -d 'Continues the outputs from where they end'
complete -c flow -n '__flow_is run' -l jobs -x -d 'Runs slices on so many threads'
complete -c flow -n '__flow_is live' -l control -r -F -d 'Takes the commands from a file or pipe'
complete -c flow -n '__flow_is live' -l replies -r -F -d 'Writes the replies to a file or pipe'
