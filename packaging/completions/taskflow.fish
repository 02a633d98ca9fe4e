# Completion of `taskflow` and `taskflow-view` for fish: commands, those of a board, each command's options and their values, the flows of a
# book, the jobs of a board, and files.

# The words before the one that is completed, without options and their values.
function __taskflow_given
    set -l is_value
    for word in (commandline -opc)[2..-1]
        if test -n "$is_value"
            set is_value
            continue
        end
        switch $word
            case --hands --worker --reply-within --stop-after --target --sessions --mode --priority --details -o
                set is_value 1
            case '-*'
            case '*'
                echo -- $word
        end
    end
end

# Whether these words are the command that is given, and as many operands as the number stand behind it; without a number any.
function __taskflow_is --argument-names command number
    set -l given (__taskflow_given)
    set -l words (string split ' ' -- $command)
    set -l length (count $words)
    test "$given[1..$length]" = "$command"
    and begin
        test -z "$number"
        or test (count $given) -eq (math $length + $number)
    end
end

# Whether so many words are given, and these are the first of them.
function __taskflow_begins --argument-names number
    set -l given (__taskflow_given)
    test (count $given) -eq $number
    and test "$given" = "$argv[2..-1]"
end

# The flows or the jobs of the file that the word of this number, not counting options, names. Of a checkout's launcher nothing is asked,
# since it might build the program.
function __taskflow_names --argument-names what number
    set -l tool (commandline -opc)[1]
    set -l given (__taskflow_given)
    set -l folder (path dirname (path resolve (command -s -- $tool)))
    for names in $folder/../lib/taskflow/names $folder/../names
        if test -x $names
            $names $what (string replace -r '^~/' "$HOME/" -- $given[$number])
        end
    end
end

complete -c taskflow -n '__taskflow_begins 0' -f
complete -c taskflow -n '__taskflow_begins 0' -l help -d 'say all commands'
complete -c taskflow -n '__taskflow_begins 0' -l version -d 'say the version'
complete -c taskflow -n '__taskflow_begins 0' -a help -d 'say a page of help'
for at in '__taskflow_begins 0' '__taskflow_begins 1 help'
    complete -c taskflow -n $at -f
    complete -c taskflow -n $at -a try -d 'run the flow of a file, and keep nothing'
    complete -c taskflow -n $at -a run -d 'run it, and keep the run in a book'
    complete -c taskflow -n $at -a resume -d 'go on with a run of a book'
    complete -c taskflow -n $at -a show -d 'say the lines and the states of a flow'
    complete -c taskflow -n $at -a reset -d 'put a reverted flow back'
    complete -c taskflow -n $at -a details -d 'say which flows a book holds'
    complete -c taskflow -n $at -a migrate -d 'make a new book of an old one'
    complete -c taskflow -n $at -a check -d 'read a flow file, and run nothing'
    complete -c taskflow -n $at -a audit -d 'check what runs of a file said'
    complete -c taskflow -n $at -a demo -d 'run a generated flow'
    complete -c taskflow -n $at -a worker -d 'perform tasks for others'
    complete -c taskflow -n $at -a conduct -d 'claim and run the jobs of a board'
    complete -c taskflow -n $at -a board -d 'post, claim and finish jobs'
end
for at in '__taskflow_begins 1 board' '__taskflow_begins 2 help board'
    complete -c taskflow -n $at -f
    complete -c taskflow -n $at -a post -d 'post a job'
    complete -c taskflow -n $at -a claim -d 'take a job'
    complete -c taskflow -n $at -a abandon -d 'give it back'
    complete -c taskflow -n $at -a consume -d 'finish it'
    complete -c taskflow -n $at -a trash -d 'throw it away'
    complete -c taskflow -n $at -a owner -d 'say who has it'
    complete -c taskflow -n $at -a list -d 'say the jobs that are not gone'
    complete -c taskflow -n $at -a serve -d 'answer clients at a socket'
end
for command in try run resume demo conduct
    complete -c taskflow -n "__taskflow_is $command" -l hands -x -d 'work with so many hands, 1 to 64'
end
for command in try run resume
    complete -c taskflow -n "__taskflow_is $command" -l worker -x -d 'work with a hand at each worker'
    complete -c taskflow -n "__taskflow_is $command" -l reply-within -x -d 'take a worker as lost that is silent for so many seconds'
end
for command in run resume
    complete -c taskflow -n "__taskflow_is $command" -l stop-after -x -d 'suspend the run after so many entries'
end
for command in try run audit
    complete -c taskflow -n "__taskflow_is $command" -l defer-reverts -d 'leave the undoing to the retry controllers further out'
end
for command in try run check
    complete -c taskflow -n "__taskflow_is $command" -l target -x -d 'take of a graph flow this item and what it needs'
end
for command in worker 'board serve'
    complete -c taskflow -n "__taskflow_is '$command'" -l sessions -x -d 'serve so many'
    complete -c taskflow -n "__taskflow_is '$command'" -l mode -x -a '0600 0660 0666' -d 'the mode of a socket'
end
complete -c taskflow -n "__taskflow_is 'board post'" -l priority -x -a 'VERY_HIGH HIGH NORMAL LOW VERY_LOW' -d 'how urgent it is'
complete -c taskflow -n "__taskflow_is 'board post'" -l details -x -d 'a value that is kept with the job'
for command in resume show reset
    complete -c taskflow -n "__taskflow_is $command 1" -f -a '(__taskflow_names flows 2)'
end
for command in claim abandon consume trash owner
    complete -c taskflow -n "__taskflow_is 'board $command' 1" -f -a '(__taskflow_names jobs 3)'
end
complete -c taskflow-view -s o -r -F -d 'write the page to a file'
complete -c taskflow-view -n 'test (count (__taskflow_given)) -eq 1' -f -a '(__taskflow_names flows 1)'
