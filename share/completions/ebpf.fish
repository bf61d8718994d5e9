# Completion for fish: ebpf, ebpf-link and ebpf-inspect.

complete -c ebpf -n __fish_use_subcommand -f -a btf -d 'write the least BTF that objects need of a kernel'
complete -c ebpf -n __fish_use_subcommand -f -a check -d 'report on which kernels programs break'
complete -c ebpf -n __fish_use_subcommand -f -a list -d 'list programs, maps, helpers, externs and relocations'
complete -c ebpf -n __fish_use_subcommand -f -a link -d 'print linked programs as instructions or bytes'
complete -c ebpf -n __fish_use_subcommand -f -a inspect -d 'print what linked programs are made of'
complete -c ebpf -s h -l help -d 'print help'
complete -c ebpf -s V -l version -d 'print the version'

set -l all '__fish_seen_subcommand_from btf check list link inspect'
set -l prepares '__fish_seen_subcommand_from link inspect'
complete -c ebpf -n $all -l object -x -d 'select one of several objects'
complete -c ebpf -n '__fish_seen_subcommand_from check link inspect' -l program -x -d 'select a program'
complete -c ebpf -n '__fish_seen_subcommand_from btf check list inspect' -s j -l json -d 'print JSON'
complete -c ebpf -n '__fish_seen_subcommand_from check' -l all -d 'name all kernels and changed values'
complete -c ebpf -n '__fish_seen_subcommand_from check' -l strict -d 'fail also without an attach target'
complete -c ebpf -n '__fish_seen_subcommand_from check list link inspect' -l color -x -a 'auto always never' -d 'select when colours are used'
complete -c ebpf -n '__fish_seen_subcommand_from check' -l progress -d 'show the progress'
complete -c ebpf -n '__fish_seen_subcommand_from check list' -l html -r -F -d 'write a page'
complete -c ebpf -n '__fish_seen_subcommand_from check' -l sarif -r -F -d 'write SARIF 2.1.0'
complete -c ebpf -n '__fish_seen_subcommand_from check' -l format -x -a 'text json github' -d 'select what is printed'
complete -c ebpf -n '__fish_seen_subcommand_from inspect' -l dot -d 'print a graph for Graphviz'
complete -c ebpf -n '__fish_seen_subcommand_from inspect' -l mermaid -d 'print a flowchart of Mermaid'
complete -c ebpf -n $prepares -l btf -r -F -d "the kernel's BTF"
complete -c ebpf -n '__fish_seen_subcommand_from btf' -l btf -r -F -d "the kernel's BTF, or a folder"
complete -c ebpf -n '__fish_seen_subcommand_from btf' -l output -r -F -d 'the file or folder to write'
complete -c ebpf -n '__fish_seen_subcommand_from btf' -l allow-ids -d 'allow that ids differ'
complete -c ebpf -n $prepares -l kallsyms -r -F -d "the kernel's symbols"
complete -c ebpf -n $prepares -l kconfig -r -F -d "the kernel's configuration"
complete -c ebpf -n $prepares -l kernel -x -d "the kernel's version"
complete -c ebpf -n '__fish_seen_subcommand_from link' -l bytes -d 'print bytes'
complete -c ebpf -n '__fish_seen_subcommand_from link' -l lines -d 'print source lines'

for program in ebpf-link ebpf-inspect
    complete -c $program -l btf -r -F -d "the kernel's BTF"
    complete -c $program -l kallsyms -r -F -d "the kernel's symbols"
    complete -c $program -l program -x -d 'select a program'
end
