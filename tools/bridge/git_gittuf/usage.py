"""The page of use, and the part of it that is about a word."""

import re

USAGE = """
usage: git gittuf WORD ..

Guards a Git repository: a policy in it says whose signatures a change of a branch or of a path needs, a signed log
records each change, and everyone can verify both in a clone of one's own. Branches and tags are named as in Git.

Begin
  setup [REMOTE]                make the store beside Git's objects, and let git fetch and git push carry what is below
      [--root KEYID,..]         refs/gittuf/ from and to the remote; --root keeps whose the first policy must be, --entry
      [--entry ID] [--anew]     an entry that the log must have; --anew makes the store again from nothing, and --store
      [--store KIND]            keeps it in a folder or a database, the KIND, with all that it has
  key [--file PATH]             make a key, or print the line of the one that is there; PATH becomes gittuf.key, which
      [--height H] [--width W]  is ~/.local/share/gittuf/key where it is not set; with --bottom it has two levels, of
      [--bottom H]              these heights; --id and --public print a word of it
      [--id | --public]
  doctor [--take [REMOTE]]      say what is missing or odd, each with the line that mends it; --take gives up what was
      [--anyway] [--json]       recorded here and not pushed, where another was faster, and goes to the last entry
                                up to which the remote's log is whole, or without REMOTE the log here; entries of
                                others it gives up only with --anyway
  doctor --store [KIND]         say whether the store is a folder or a database, once it was moved into the KIND

The policy, edited at refs/gittuf/policy-staging until it is applied
  policy init NAME              begin one: NAME signs it, by the key here
  policy person NAME KEY..      a person with these public keys; --remove takes one out
  policy rotate PERSON [KEY]    give a person this key, or the one here, in place of the older ones
  policy rule NAME PATTERN..    who signs a change of these, as refs/heads/main, 'git:refs/heads/v*' or 'file:docs/*':
      --persons A,B             --persons are asked, and --threshold of them suffice, or 1; --terminating lets no later
      [--threshold N]           rule count, which --no-terminating takes back; --before RULE says where it stands, and
      [--[no-]terminating]      --remove takes it out. With --file NAME it stands in the file that goes on from the rule
      [--before RULE]           NAME, whose persons sign that file. The rules root and targets have no pattern: they say
      [--file NAME] [--remove]  who signs the policy, and its rules
  policy global threshold       what holds whatever the rules delegate: for what the patterns match never fewer than N
      NAME N PATTERN..          persons of a rule sign, and a reference never goes back; --remove NAME takes such a rule
  policy global no-rewind       out. Who signs the root signs the file of these rules, and verify says where one is broken
      NAME PATTERN..
  policy show [--json]          print the policy in force, what is edited, who signed that, and its id
  policy sign [--id ID]         print what is edited and sign it: at a terminal it asks before, and elsewhere it wants
                                the id of what policy show printed
  policy discard                give up what is edited
  policy apply [--anyway]       bring it into force, and record that

Every day
  record BRANCH                 sign that a branch or tag stands where it stands now, where that is lawful; --anyway
      [--anyway]                signs it all the same, here and below
  approve BRANCH [COMMIT]       sign that it may go to this commit's files, or to where it stands here, or with --delete
      [--delete] [--anyway]     that it may be gone, where a rule wants that of the key here
  push [BRANCH ..]              push these or the branch that is checked out, and what else is recorded since, with the
      [--remote R] [--anyway]   log, all or nothing; where another was faster it does what sync does, and pushes again
  push --desk PORT              send the entries that the desk at this port of this machine lacks, in their order, and say
                                for each what it answers; status 7 where it does not take one
  fetch --desk PORT             bring what the desk has, as a remote has it, which is named desk or NAME; git fetch and
      [--remote NAME]           git push do not talk with a desk
  sync [--remote R] [--anyway]  fetch, and where another recorded first, record what is still lawful after that anew
  recover BRANCH [--anyway]     lead out of a violation: sign the skips, say which files are wanted, and then record
  verify [BRANCH ..]            say whether each change was lawful; with no name, of all that the log speaks of and of
      [--root KEYID,..]         each branch and tag that a rule protects. A remote's branch stands for one that is not
      [--pinned]                here, and is named as origin/main; one that stands where no entry has it is judged beside
      [--entry ID]              the one here. --remote R judges the branches of R in place of those here. The first
      [--remote R]              policy must have the keys of --root, or those that setup --root kept, which --pinned
      [-v] [--json]             demands, or else those that it was seen to have here first; --entry says which entry
                                the log must have. -v tells of each entry who signed and who approved it, when, and of
                                a violation who is missing
  skip ENTRY .. [-m TEXT]       sign that entries, by number or id, are to be skipped
      [--anyway]
  note ENTRY .. [-m TEXT]       sign a note on entries
  log [-v | --json]             print the log, a line for each entry; -v and --json say who signed it and who approved the
                                change, when, what it says, which entry skips it, and what a policy changes of the one
                                before it
  report [-o FILE]              write a page of HTML for an auditor: the verdicts, the log with who signed it, the policy,
      [--root ..] [--pinned]    and what this rests on
      [--entry ..] [--remote R]
  explain NAME [-v] [--json]    print the rules that protect a branch or a path; -v and --json say whom they ask
  export                        print the stream of the store, without the content of files
  mirror REMOTE [--into STORE]  offer what a remote, or a repository at a path, has to a mirror: a store whose log only
                                grows. It takes a log that goes on from its own, and tells of one that is shorter or
                                that is another past, of which it keeps the entry that differs. STORE is a folder, or
                                a database where it ends in .db
  evidence ENTRY ENTRY -o FILE  write a dossier, for others, of two entries that one key signed: of one number, or with
      [--from STORE] [--key K]  one leaf. They stand in a mirror or here, or in STORE; K is the public part of a key that
                                no policy here names
  evidence --check FILE         say what such a dossier shows, also where no repository is
  hook install [--server]       let git push be refused where it would leave something unlawful, before it leaves this
      [--most-seconds N]        clone, or in a server's repository before it is taken; a hook that stands there is
                                called first. git -c gittuf.anyway=true push leaves a clone all the same. With N a server
                                refuses a push that takes more seconds of the processor to judge
  hook --remove                 take these hooks away

What verify and the commands that sign print, and their statuses, are those of the program: gittuf --help has them. On
a terminal a sentence says what a line means. Where git gittuf itself cannot go on it says why: status 2 the words, 3
what was asked for, 4 what is outside, as a repository that is none, or another git gittuf at work here.

  git gittuf setup && git gittuf key
  git gittuf record main && git gittuf push
  git pull && git gittuf verify main
"""


def help_of(words):
    """The part of the page of use that is about a word, or of the policy about all of its steps, whatever stands behind it."""
    name, lines, found = " ".join(words), USAGE.splitlines(), []
    is_of = False
    for line in lines:
        if re.match("  [a-z]", line):
            is_of = f"{line.strip()} ".startswith(f"{name} ")
        elif not line.startswith("   "):
            is_of = False
        found += [line] if is_of else []
    return "\n".join(found) if found or len(words) < 2 else help_of(words[:-1])
