# Completion of fish for git gittuf. It goes into a folder of fish's completions under the name git-gittuf.fish, or is
# sourced.

set -l all_words setup key policy record approve verify recover push fetch sync skip note log explain report export mirror evidence doctor hook
set -l steps init person rotate rule global show sign discard apply

function __git_gittuf_is
    set -l words (commandline -opc)
    set -l at (contains -i gittuf $words; or contains -i git-gittuf $words)
    test -n "$at"; and test (count $words) -gt $at; and contains -- $words[(math $at + 1)] $argv
end

function __git_gittuf_begins
    set -l words (commandline -opc)
    set -l at (contains -i gittuf $words; or contains -i git-gittuf $words)
    test -n "$at"; and test (count $words) -eq $at
end

function __git_gittuf_step
    set -l words (commandline -opc)
    set -l at (contains -i policy $words)
    __git_gittuf_is policy; and test (count $words) -gt $at; and contains -- $words[(math $at + 1)] $argv
end

function __git_gittuf_names
    git for-each-ref --format='%(refname:short)' $argv 2>/dev/null
end

for it in git git-gittuf
    complete -c $it -n __git_gittuf_begins -f -a "$all_words"
    complete -c $it -n '__git_gittuf_is setup doctor' -f -a '(git remote 2>/dev/null)'
    complete -c $it -n '__git_gittuf_is setup' -l anew -l root -l entry
    complete -c $it -n '__git_gittuf_is doctor' -l take -l json
    complete -c $it -n '__git_gittuf_is setup doctor' -l store -x -a 'folder database'
    complete -c $it -n '__git_gittuf_is key' -l file -l height -l width -l bottom -l id -l public
    complete -c $it -n '__git_gittuf_is record recover push approve' -f -a '(__git_gittuf_names refs/heads refs/tags)'
    complete -c $it -n '__git_gittuf_is approve' -l delete
    complete -c $it -n '__git_gittuf_is verify' -f -a '(__git_gittuf_names refs/heads refs/tags refs/remotes)' -l root -l pinned -l entry -l json -s v
    complete -c $it -n '__git_gittuf_is log explain' -l json -s v
    complete -c $it -n '__git_gittuf_is push fetch sync' -l remote
    complete -c $it -n '__git_gittuf_is push fetch' -l desk
    complete -c $it -n '__git_gittuf_is report' -s o -l root -l pinned -l entry
    complete -c $it -n '__git_gittuf_is push sync verify report' -l remote
    complete -c $it -n '__git_gittuf_is record recover push sync approve skip note doctor' -l anyway
    complete -c $it -n '__git_gittuf_is mirror' -F -a '(git remote 2>/dev/null)' -l into
    complete -c $it -n '__git_gittuf_is evidence' -F -s o -l check -l from -l key
    complete -c $it -n '__git_gittuf_is hook' -f -a install -l server -l most-seconds -l remove
    complete -c $it -n '__git_gittuf_is skip note' -s m
    complete -c $it -n '__git_gittuf_is policy' -f -a "$steps"
    complete -c $it -n '__git_gittuf_step rule' -l persons -l threshold -l terminating -l no-terminating
    complete -c $it -n '__git_gittuf_step rule' -l before -l file
    complete -c $it -n '__git_gittuf_step rule person global' -l remove
    complete -c $it -n '__git_gittuf_step global' -f -a 'threshold no-rewind'
    complete -c $it -n '__git_gittuf_step sign' -l id
    complete -c $it -n '__git_gittuf_step show' -l json
    complete -c $it -n '__git_gittuf_step apply' -l anyway
end
