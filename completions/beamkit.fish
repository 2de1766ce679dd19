# Completes the words of beamkit in fish: the commands, the words of `show`, and names of files, those of
# .beam files first. For `asm` all files are alike.

# Whether the word that is completed is the one of this number, behind one of these commands if any are named.
function __beamkit_at
    set -l words (commandline -opc)
    test (count $words) -eq $argv[1]; or return 1
    test (count $argv) -eq 1; or contains -- $words[2] $argv[2..]
end

complete -c beamkit -f
complete -c beamkit -n '__beamkit_at 1' -a info -d 'print the ids and sizes of the chunks'
complete -c beamkit -n '__beamkit_at 1' -a show -d 'print one table'
complete -c beamkit -n '__beamkit_at 1' -a disasm -d 'print a listing'
complete -c beamkit -n '__beamkit_at 1' -a asm -d 'assemble a listing'
complete -c beamkit -n '__beamkit_at 1' -a strip -d 'leave out what a running node does not want'
complete -c beamkit -n '__beamkit_at 1' -a canon -d 'print the canonical file'
complete -c beamkit -n '__beamkit_at 1' -a cmp -d 'tell whether two modules are the same'
complete -c beamkit -n '__beamkit_at 1' -a validate -d 'judge the code'
complete -c beamkit -n '__beamkit_at 1' -a gen -d 'make a module of so many functions and judge it'
complete -c beamkit -n '__beamkit_at 2 show' -a atoms -d 'names of the module'
complete -c beamkit -n '__beamkit_at 2 show' -a imports -d 'functions that it calls elsewhere'
complete -c beamkit -n '__beamkit_at 2 show' -a exports -d 'functions that may be called'
complete -c beamkit -n '__beamkit_at 2 show' -a locals -d 'functions of its own'
complete -c beamkit -n '__beamkit_at 2 show' -a funs -d 'functions that are passed as values'
complete -c beamkit -n '__beamkit_at 2 show' -a literals -d 'terms that the code uses'
complete -c beamkit -n '__beamkit_at 2 show' -a lines -d 'where its lines come from'
complete -c beamkit -n '__beamkit_at 2 show' -a attributes -d 'what the module says of itself'
complete -c beamkit -n '__beamkit_at 2 show' -a compile -d 'how it was compiled'
complete -c beamkit -n '__beamkit_at 2 asm' -F
complete -c beamkit -k -a '(__fish_complete_suffix .beam)' \
    -n '__beamkit_at 2 info disasm strip canon cmp validate; or __beamkit_at 3 show cmp'
