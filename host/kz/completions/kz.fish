# Completion of kz for fish. Written by `make manual` from the program's own table.
function __kz_command_is
    set -l words (commandline -opc)
    test (count $words) -ge 2; and test $words[2] = $argv[1]
end
complete -c kz -f
complete -c kz -n __fish_use_subcommand -a check -d 'check a plan of a day: lawful, or what is wrong with which word'
complete -c kz -n __fish_use_subcommand -a build -d 'write the greedy plan of a day'
complete -c kz -n __fish_use_subcommand -a plan -d 'plan a day: the greedy plan, made shorter by trials'
complete -c kz -n __fish_use_subcommand -a vehicle -d 'show what one vehicle of a plan does, or hand out its words'
complete -c kz -n __fish_use_subcommand -a same -d 'tell whether two plans have the same rounds'
complete -c kz -n __fish_use_subcommand -a show -d 'show a day, or a plan of it, as tables'
complete -c kz -n __fish_use_subcommand -a chart -d 'draw a plan as an SVG picture, one lane a vehicle'
complete -c kz -n __fish_use_subcommand -a pack -d 'write a day in text form as the words of a day file'
complete -c kz -n __fish_use_subcommand -a unpack -d 'write a day in its text form'
complete -c kz -n __fish_use_subcommand -a import -d 'write a Solomon instance as the words of a day file'
complete -c kz -n __fish_use_subcommand -a demo -d 'plan a sample depot\'s day and show what comes of it'
complete -c kz -n __fish_use_subcommand -a help -d 'print the help of a command'
complete -c kz -n __fish_use_subcommand -l help -d 'print the help'
complete -c kz -n __fish_use_subcommand -l version -d 'print the version'
complete -c kz -n '__kz_command_is help; and test (count (commandline -opc)) -eq 2' -a check -d 'check a plan of a day: lawful, or what is wrong with which word'
complete -c kz -n '__kz_command_is help; and test (count (commandline -opc)) -eq 2' -a build -d 'write the greedy plan of a day'
complete -c kz -n '__kz_command_is help; and test (count (commandline -opc)) -eq 2' -a plan -d 'plan a day: the greedy plan, made shorter by trials'
complete -c kz -n '__kz_command_is help; and test (count (commandline -opc)) -eq 2' -a vehicle -d 'show what one vehicle of a plan does, or hand out its words'
complete -c kz -n '__kz_command_is help; and test (count (commandline -opc)) -eq 2' -a same -d 'tell whether two plans have the same rounds'
complete -c kz -n '__kz_command_is help; and test (count (commandline -opc)) -eq 2' -a show -d 'show a day, or a plan of it, as tables'
complete -c kz -n '__kz_command_is help; and test (count (commandline -opc)) -eq 2' -a chart -d 'draw a plan as an SVG picture, one lane a vehicle'
complete -c kz -n '__kz_command_is help; and test (count (commandline -opc)) -eq 2' -a pack -d 'write a day in text form as the words of a day file'
complete -c kz -n '__kz_command_is help; and test (count (commandline -opc)) -eq 2' -a unpack -d 'write a day in its text form'
complete -c kz -n '__kz_command_is help; and test (count (commandline -opc)) -eq 2' -a import -d 'write a Solomon instance as the words of a day file'
complete -c kz -n '__kz_command_is help; and test (count (commandline -opc)) -eq 2' -a demo -d 'plan a sample depot\'s day and show what comes of it'
complete -c kz -n '__kz_command_is check' -F
complete -c kz -n '__kz_command_is check' -l json -d 'print the answer, or the refusal, as one JSON object on standard output'
complete -c kz -n '__kz_command_is check' -s h -l help -d 'print this text'
complete -c kz -n '__kz_command_is build' -F
complete -c kz -n '__kz_command_is build' -s o -l output -r -F -d 'write there instead of to standard output, which is also what - stands for'
complete -c kz -n '__kz_command_is build' -l hex -d 'write words as hexadecimal lines, one word a line, instead of raw bytes'
complete -c kz -n '__kz_command_is build' -l json -d 'print the answer, or the refusal, as one JSON object on standard output'
complete -c kz -n '__kz_command_is build' -s h -l help -d 'print this text'
complete -c kz -n '__kz_command_is plan' -F
complete -c kz -n '__kz_command_is plan' -l k -x -d 'try each stop beside its K nearest stops, 1 to 50; 5-50: beside 5, then 10, 25 and 50; without --k both 5-50 and 50'
complete -c kz -n '__kz_command_is plan' -l trials -x -d 'stop after N trials, though more might still make the plan shorter'
complete -c kz -n '__kz_command_is plan' -l settle -d 'go on until no trial makes the plan shorter; this is what is done without --trials'
complete -c kz -n '__kz_command_is plan' -s o -l output -r -F -d 'write there instead of to standard output, which is also what - stands for'
complete -c kz -n '__kz_command_is plan' -l hex -d 'write words as hexadecimal lines, one word a line, instead of raw bytes'
complete -c kz -n '__kz_command_is plan' -l progress -d 'show progress also where standard error is no terminal'
complete -c kz -n '__kz_command_is plan' -l json -d 'print the answer, or the refusal, as one JSON object on standard output'
complete -c kz -n '__kz_command_is plan' -s h -l help -d 'print this text'
complete -c kz -n '__kz_command_is vehicle' -F
complete -c kz -n '__kz_command_is vehicle' -s o -l output -r -F -d 'write there instead of to standard output, which is also what - stands for'
complete -c kz -n '__kz_command_is vehicle' -l hex -d 'write words as hexadecimal lines, one word a line, instead of raw bytes'
complete -c kz -n '__kz_command_is vehicle' -l json -d 'print the answer, or the refusal, as one JSON object on standard output'
complete -c kz -n '__kz_command_is vehicle' -s h -l help -d 'print this text'
complete -c kz -n '__kz_command_is same' -F
complete -c kz -n '__kz_command_is same' -l json -d 'print the answer, or the refusal, as one JSON object on standard output'
complete -c kz -n '__kz_command_is same' -s h -l help -d 'print this text'
complete -c kz -n '__kz_command_is show' -F
complete -c kz -n '__kz_command_is show' -l json -d 'print the answer, or the refusal, as one JSON object on standard output'
complete -c kz -n '__kz_command_is show' -s h -l help -d 'print this text'
complete -c kz -n '__kz_command_is chart' -F
complete -c kz -n '__kz_command_is chart' -s o -l output -r -F -d 'write there instead of to standard output, which is also what - stands for'
complete -c kz -n '__kz_command_is chart' -l json -d 'print the answer, or the refusal, as one JSON object on standard output'
complete -c kz -n '__kz_command_is chart' -s h -l help -d 'print this text'
complete -c kz -n '__kz_command_is pack' -F
complete -c kz -n '__kz_command_is pack' -s o -l output -r -F -d 'write there instead of to standard output, which is also what - stands for'
complete -c kz -n '__kz_command_is pack' -l hex -d 'write words as hexadecimal lines, one word a line, instead of raw bytes'
complete -c kz -n '__kz_command_is pack' -l json -d 'print the answer, or the refusal, as one JSON object on standard output'
complete -c kz -n '__kz_command_is pack' -s h -l help -d 'print this text'
complete -c kz -n '__kz_command_is unpack' -F
complete -c kz -n '__kz_command_is unpack' -s o -l output -r -F -d 'write there instead of to standard output, which is also what - stands for'
complete -c kz -n '__kz_command_is unpack' -l json -d 'print the answer, or the refusal, as one JSON object on standard output'
complete -c kz -n '__kz_command_is unpack' -s h -l help -d 'print this text'
complete -c kz -n '__kz_command_is import' -F
complete -c kz -n '__kz_command_is import' -s o -l output -r -F -d 'write there instead of to standard output, which is also what - stands for'
complete -c kz -n '__kz_command_is import' -l hex -d 'write words as hexadecimal lines, one word a line, instead of raw bytes'
complete -c kz -n '__kz_command_is import' -l json -d 'print the answer, or the refusal, as one JSON object on standard output'
complete -c kz -n '__kz_command_is import' -s h -l help -d 'print this text'
complete -c kz -n '__kz_command_is demo' -s o -l output -r -F -d 'write there instead of to standard output, which is also what - stands for'
complete -c kz -n '__kz_command_is demo' -l json -d 'print the answer, or the refusal, as one JSON object on standard output'
complete -c kz -n '__kz_command_is demo' -s h -l help -d 'print this text'
