# Completions of fish for mortarleek, mortarleek-agent, mortarleek-add, mortarleek-filter, mortarleek-log,
# mortarleek-setup and mortarleek-status.

complete -c mortarleek -f -n __fish_use_subcommand -a add -d 'Add, list and remove keys'
complete -c mortarleek -f -n __fish_use_subcommand -a agent -d 'Start or end an agent'
complete -c mortarleek -f -n __fish_use_subcommand -a audit -d 'List the signatures of a recorded run'
complete -c mortarleek -f -n __fish_use_subcommand -a drill -d 'Try the agent, and time it'
complete -c mortarleek -f -n __fish_use_subcommand -a filter -d 'Run a command that uses some keys'
complete -c mortarleek -f -n __fish_use_subcommand -a log -d 'Tell what signatures of a recorded run were for'
complete -c mortarleek -f -n __fish_use_subcommand -a replay -d 'Run the agent over a schedule'
complete -c mortarleek -f -n __fish_use_subcommand -a serve -d 'Run the agent itself at a socket'
complete -c mortarleek -f -n __fish_use_subcommand -a setup -d 'Write the lines by which logins share one agent'
complete -c mortarleek -f -n __fish_use_subcommand -a status -d 'Tell which agent answers'
complete -c mortarleek -n __fish_use_subcommand -l version -d 'Print version, commit and toolchain, and what is proved'
complete -c mortarleek-setup -f -l yes -d 'Write without a question'
complete -c mortarleek-setup -f -l remove -d 'Take the lines away'
complete -c mortarleek -n '__fish_seen_subcommand_from setup' -f -l yes -d 'Write without a question'
complete -c mortarleek -n '__fish_seen_subcommand_from setup' -f -l remove -d 'Take the lines away'
complete -c mortarleek-status -f -l try -d 'Have each key sign'
complete -c mortarleek -n '__fish_seen_subcommand_from status' -f -l try -d 'Have each key sign'

# `mortarleek agent`, `mortarleek add` and `mortarleek filter` take the same words as the programs of these names.
function __mortarleek_agent
    complete $argv -l reuse -d 'Print the lines of the agent that answers at the path'
    complete $argv -l restart -d 'End the agent that answers at the path, and start one in its place'
    complete $argv -l stand-in -d 'Start the helper for tests'
    complete $argv -l record -r -F -d 'Write what happens to a new file'
    complete $argv -l record-or-stop -d 'Sign nothing of which the record can tell nothing'
    complete $argv -l log -x -a '(__fish_complete_directories)' -d 'Keep what is signed, a file a day'
    complete $argv -l log-days -x -a '0 7 30' -d 'Keep so many days of the log'
    complete $argv -l confirm-limit -x -a '30 1m 5m' -d 'End a question to the user after this time'
    complete $argv -s a -r -F -d 'Listen at this path'
    complete $argv -s c -d 'Print lines for csh'
    complete $argv -s D -d 'Stay in front'
    complete $argv -s d -d 'Stay in front, and tell what is done'
    complete $argv -s E -x -a sha256 -d 'Hash of fingerprints'
    complete $argv -s k -d 'End the agent of SSH_AGENT_PID'
    complete $argv -s O -x -a 'allow-remote-pkcs11 no-restrict-websafe' -d 'Option that asks for nothing here'
    complete $argv -s P -x -d 'Patterns of providers, none of which is ever loaded'
    complete $argv -s s -d 'Print lines for Bourne shells'
    complete $argv -s T -d 'Make the folder in TMPDIR'
    complete $argv -s t -x -a '30m 1h 8h 1d' -d 'Forget keys after this time'
    complete $argv -s U -d 'Leave folders of killed agents'
    complete $argv -s u -d 'Remove folders of killed agents, and start none'
end

function __mortarleek_add
    complete $argv -s C -d 'Certificates alone, by ssh-add'
    complete $argv -s c -d 'Ask the user before each use'
    complete $argv -s D -d 'Remove all keys'
    complete $argv -s d -d 'Remove keys'
    complete $argv -s E -x -a 'md5 sha256' -d 'Hash of fingerprints, by ssh-add'
    complete $argv -s H -r -F -d 'File of known hosts'
    complete $argv -s h -x -a '(__fish_print_hostnames)' -d 'Only towards this destination'
    complete $argv -s k -d 'Leave certificates aside'
    complete $argv -s L -d 'List public keys'
    complete $argv -s l -d 'List fingerprints'
    complete $argv -s N -d 'Give certificates no end of their own'
    complete $argv -s q -d 'Say nothing where all goes well'
    complete $argv -s T -d 'Try the keys, by ssh-add'
    complete $argv -s t -x -a '30m 1h 8h 1d' -d 'Forget the key after this time'
    complete $argv -s u -x -a '1 3' -d 'Forget the key after so many uses'
    complete $argv -l for -x -a 'login git login,git file ca sshsig other all' -d 'What the key may sign for'
    complete $argv -l any-agent -d 'Send the number and the purposes to any agent'
    complete $argv -s v -d 'Tell what happens to each file'
    complete $argv -s X -d 'Unlock the agent'
    complete $argv -s x -d 'Lock the agent'
end

function __mortarleek_filter
    complete $argv -s a -r -F -d 'Serve at a socket that stays'
    complete $argv -l end -d 'End the filter of -a'
    complete $argv -s k -r -F -d 'Public keys that may be used: a file, a fingerprint, a comment'
    complete $argv -l sign-only -x -a 'login git login,git file ca sshsig other all' -d 'What they may sign for'
end

function __mortarleek_log
    complete $argv -s f -d 'Go on as the record grows'
    complete $argv -l confirm-limit -x -a '30 1m 5m' -d 'Questions ended after this time'
    complete $argv -l host -x -a '(__fish_print_hostnames)' -d 'Look for this host where names are hashed'
    complete $argv -l json -d 'Tell each as an object'
    complete $argv -l key -r -F -d 'Of this key alone: a file, a fingerprint, a comment'
    complete $argv -l since -x -a 'today yesterday' -d 'Nothing before this time'
    complete $argv -s t -x -a '30m 1h 8h 1d' -d 'Keys were forgotten after this time'
end

__mortarleek_agent -c mortarleek-agent
__mortarleek_agent -c mortarleek -n '__fish_seen_subcommand_from agent'
__mortarleek_add -c mortarleek-add
__mortarleek_add -c mortarleek -n '__fish_seen_subcommand_from add'
__mortarleek_filter -c mortarleek-filter
__mortarleek_filter -c mortarleek -n '__fish_seen_subcommand_from filter'
__mortarleek_log -c mortarleek-log
__mortarleek_log -c mortarleek -n '__fish_seen_subcommand_from log'
