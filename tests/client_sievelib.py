#!/usr/bin/env python3
"""The steps of tests/clients by sievelib's ManageSieve client: client_sievelib.py PORT."""
import sys
from sievelib.managesieve import Client, Error

RULES = 'require "fileinto";\nif header :contains "subject" "[list]" { fileinto "lists"; }'
WRONG = 'keep;\nfileinto "lists";'
failed = False


def step(name, said, wanted=True):
    global failed
    if said == wanted:
        print(f"sievelib: {name}: ok")
    else:
        print(f"sievelib: {name}: {said!r}")
        failed = True


def is_refused(call, *words, **options):
    try:
        return not call(*words, **options)
    except Error as error:
        return str(error)


def log_in(client):
    step("log in with a wrong password", is_refused(Client("127.0.0.1", client.srvport).connect, "sievelib", "wrong"))
    step("STARTTLS", is_refused(Client("127.0.0.1", client.srvport).connect, "sievelib", "secret", starttls=True), "STARTTLS not supported by the server")
    step("DIGEST-MD5", is_refused(Client("127.0.0.1", client.srvport).connect, "sievelib", "secret", authmech="DIGEST-MD5"))
    step("log in", client.connect("sievelib", "secret"))
    step("capabilities", b'"OWNER" "sievelib"' in client.capability())


def scripts(client):
    step("list nothing", client.listscripts(), (None, []))
    step("space", client.havespace("rules", 400))
    step("space for too much", client.havespace("rules", 4_000_000), False)
    step("check", client.checkscript(RULES))
    step("check what is wrong", (client.checkscript(WRONG), client.errmsg), (False, b"line 2: extension not required"))
    step("put", client.putscript("rules", RULES))
    step("put another", client.putscript("täglich", "keep;\r\n"))
    step("put what is wrong", client.putscript("wrong", WRONG), False)
    step("activate", client.setactive("rules"))
    step("list the active one", client.listscripts(), ("rules", ["täglich"]))
    step("get", client.getscript("rules"), RULES)
    step("rename", client.renamescript("täglich", "Urlaub"))
    step("rename to a name that is there", (client.renamescript("Urlaub", "rules"), client.errcode), (False, b"ALREADYEXISTS"))
    step("delete the active one", (client.deletescript("rules"), client.errcode), (False, b"ACTIVE"))
    step("deactivate", client.setactive(""))
    step("delete", client.deletescript("rules") and client.deletescript("Urlaub"))
    step("delete what isn't there", (client.deletescript("rules"), client.errcode), (False, b"NONEXISTENT"))
    step("list nothing", client.listscripts(), (None, []))


client = Client("127.0.0.1", int(sys.argv[1]))
log_in(client)
scripts(client)
step("log out", client.logout(), None)
sys.exit(failed)
