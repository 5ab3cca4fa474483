#!/usr/bin/env python3
"""Delivers mails, then saves new mail and its stored parts as attachments.sh does: attachments.py DB USER FOLDER [MAIL ..]

Which mail a part belongs to, the answer of `deliver` says. For what others delivered it is found in the catalog, as in attachments.sh.
The status is 0; 65 if mails were put aside, which standard error names, and the others are filed; or 1 after an error:
mails before it are filed.
"""
import os
import re
import subprocess
import sys
import time

PROGRAM = os.environ.get("DEPOT") or "depot"
sys.dont_write_bytecode = True
# in a clone the module is there; else it has to be where Python finds it
sys.path.append(f"{os.path.dirname(os.path.realpath(__file__))}/../contrib/python")
from depot import Depot, DepotError, MessageTooLarge, Read, TooManyParts


def deliver(depot, user, mails):
    """Delivers mails; gives the number of the mail for each entry, or `unlinked` if the filter kept none, and how many were put aside."""
    mail_of, aside = {}, 0
    for mail in mails:
        try:
            filed = depot.deliver(user, mail)
        except (MessageTooLarge, TooManyParts, Read) as refused:
            print(f"put aside: {mail}: refused {refused.number} {refused.name}", file=sys.stderr)
            aside += 1
            continue
        kept = next((it.number for it in filed if it.kind == "message"), "unlinked")
        mail_of.update((it.number, kept) for it in filed)
    return mail_of, aside


def sides_of(part, mails):
    """The last of these mails before a part that has its content, and the first one after it."""
    known = [it.number for it in part.of if it.number in mails]
    return max((it for it in known if it < part.number), default=None), min((it for it in known if it > part.number), default=None)


def save(depot, user, folder, last, mail_of):
    """Saves the entries after the number `last`, and returns the last number."""
    entries = depot.catalog(user, last)
    mails = {it.number for it in entries if it.kind == "message"}
    sides = {it.number: sides_of(it, mails) for it in entries if it.kind == "part"}
    # a filter that files the mail first shows it by a part that only a mail before it has
    first = any(before and not after for before, after in sides.values())
    for entry in entries:
        last = entry.number
        place = f"{folder}/{last}/mail.eml"
        if entry.kind == "part":
            before, after = sides[last]
            mail = mail_of.get(last) or (first and before) or after or before or "unlinked"
            # what the sender wrote: other characters than some are escaped, or become underscores
            name = re.sub(rb"[^ !#-\[\]-~]", lambda it: b"_%02x" % it[0][0], entry.name).decode()
            place = f"{folder}/{mail}/{last}-" + re.sub(r"[^A-Za-z0-9.-]", "_", name)[-100:]
        os.makedirs(os.path.dirname(place), exist_ok=True)
        depot.export(user, last, place)
    return last


def last_given(db, user):
    """The last number that a user was given, also if its entry was removed; if another process has the depot, it asks again."""
    for pause in 1, 2, 4, 8, 16:
        said = subprocess.run([PROGRAM, "inspect", db], stdin=subprocess.DEVNULL, stdout=subprocess.PIPE).stdout.decode()
        if said != "no depot: another process holds it\n":
            break
        time.sleep(pause)
    found = re.search(f'^user "{re.escape(user)}" last ([0-9]+) ', said, re.MULTILINE)
    return int(found[1]) if found else 0


def main(db, user, folder, *mails):
    last = int(open(f"{folder}/last").read()) if os.path.exists(f"{folder}/last") else 0
    try:
        Depot(db).close()  # there are the program and the file
        if last_given(db, user) < last:
            sys.exit(f"{db}: its numbers went back behind {last}, as in an older copy: save {user} into a new folder")
        os.makedirs(folder, exist_ok=True)
        with Depot(db) as depot:
            mail_of, aside = deliver(depot, user, mails)
            last = save(depot, user, folder, last, mail_of)
    except DepotError as fault:
        sys.exit(f"{fault}; depot inspect {db} says more")
    with open(f"{folder}/last.new", "w") as last_file:
        last_file.write(f"{last}\n")
    os.replace(f"{folder}/last.new", f"{folder}/last")
    sys.exit(65 if aside else 0)


if len(sys.argv) < 4:
    sys.exit("the words are attachments.py DB USER FOLDER [MAIL ..]")
main(*sys.argv[1:])
