"""A policy as an object of JSON: what is in force, what is edited, and who signed that."""

import hashlib
import os

from git_gittuf import policies, policy_faults


def of_role(it):
    """Whom a role or a rule asks, by the persons' names, or in schema 1 by keys, and how many of them."""
    return {"persons": it.get("persons"), "keys": it.get("keyids"), "threshold": it["threshold"]}


def of_rule(file, it):
    return {"file": file, "name": it["name"], "paths": it["paths"], "terminating": it["terminating"], **of_role(it)}


def of_policy(policy):
    """All that a policy says, or nothing where there is none. A file that is no rule file is there by its sum."""
    if not policy.files:
        return None
    ruled = {policies.path_of(it) for it in policy.delegated()}
    others = {os.fsdecode(path): hashlib.sha256(text).hexdigest() for path, text in policy.others.items() if path not in ruled}
    return {
        "commit": policy.commit.decode() if policy.commit else None,
        "versions": {name: file.says["version"] for name, file in policy.all_files().items()},
        "roles": {name: of_role(policy.role(name)) for name in policies.ROLES},
        "persons": policy.persons(),
        "rules": [of_rule(file, it) for file, it in policy.rules()],
        "global": policy.global_file.says["rules"] if policy.global_file else [],
        "others": others,
    }


def of_signers(draft, name, file):
    role = draft.role(name)
    signed, missing = policy_faults.who_signed(file, role, draft)
    return {"file": name, "signed": signed, "missing": missing, "threshold": role["threshold"]}
