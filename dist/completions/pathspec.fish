# Completions of pathspec for fish.

# Whether the command is one of these. (A spec may have a command's name.)
function __pathspec_command_is
    set -l words (commandline -opc)
    set -q words[2]; and contains -- $words[2] $argv
end

complete -c pathspec -n __fish_use_subcommand -f -a filter -d 'Writes the paths that pathspecs select'
complete -c pathspec -n __fish_use_subcommand -f -a list -d 'Writes the files below a directory that pathspecs select'
complete -c pathspec -n __fish_use_subcommand -f -a explain -d 'Says why paths are selected or not'
complete -c pathspec -n __fish_use_subcommand -f -a show -d 'Shows what pathspecs mean'
complete -c pathspec -n __fish_use_subcommand -s V -l version -d 'Shows the version'
complete -c pathspec -s h -l help -d 'Shows help'

set -l any '__pathspec_command_is filter list explain show'
complete -c pathspec -n $any -l specs-from -r -F -d 'Takes a spec from each line of a file'
complete -c pathspec -n $any -l prefix -x -a '(__fish_complete_directories)' -d 'The directory in which the specs are given'
complete -c pathspec -n $any -l root -x -a '(__fish_complete_directories)' -d 'Where the repository lies'
complete -c pathspec -n $any -l icase -d "ASCII case doesn't count"
complete -c pathspec -n $any -l glob -d "Wildcards don't take slashes"
complete -c pathspec -n $any -l noglob -d 'Specs have no wildcards'
complete -c pathspec -n $any -l literal -d 'Specs are paths, magic and all'

set -l paths '__pathspec_command_is filter list explain'
complete -c pathspec -n $paths -l attr -r -F -d 'The attributes of a path'
complete -c pathspec -n $paths -l attr-from -r -F -d 'The attributes that git check-attr -z printed'
complete -c pathspec -n $paths -l attributes -x -a '(__fish_complete_directories)' -d 'The directory whose attribute files count'
complete -c pathspec -n $paths -l global -d 'Your own attribute file counts, too'
complete -c pathspec -n $paths -s z -l null -d 'A byte 0 ends each path'

set -l answers '__pathspec_command_is filter list'
complete -c pathspec -n $answers -s c -l count -d 'Writes how many are selected'
complete -c pathspec -n $answers -s q -l quiet -d 'Writes nothing; status 1 if none is selected'
complete -c pathspec -n $answers -l error-unmatch -d 'Status 1 if an include matches nothing'
complete -c pathspec -n $answers -l stats -d 'Writes counts to standard error'

set -l filter '__pathspec_command_is filter'
complete -c pathspec -n $filter -l verbatim -d 'Takes a leading ./ as part of a path'
complete -c pathspec -n $filter -s v -l invert -d "Writes the paths that aren't selected"

set -l list '__pathspec_command_is list'
complete -c pathspec -n $list -s C -x -a '(__fish_complete_directories)' -d 'Takes the directory from this one'
complete -c pathspec -n $list -l dirs -d 'Lists directories too, with a slash'
complete -c pathspec -n $list -l nested -d 'Enters directories with a .git in them'
complete -c pathspec -n $list -l unsorted -d 'Takes names as the system gives them'

set -l explain '__pathspec_command_is explain'
complete -c pathspec -n $explain -l path -r -F -d 'A path; a slash ends a directory'
complete -c pathspec -n $explain -l all -d 'Says of each spec why it matches or not'
complete -c pathspec -n $explain -l json -d 'Writes an object a line'
