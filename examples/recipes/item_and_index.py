"""An item with its index entry, and a search.

A user is stored under a number, and found by login or by city. The index entry `login/ada` and the user are written in one transaction, so
no reader sees one without the other, or a user under two logins. The city is the item's tag, which the store indexes by itself.

Server: ramp serve --stay --epoch 1000 --sessions 8 t"""
import sys

import ramp_client

GONE = ""
"""The value of an index entry that is no longer valid: there is no deletion."""


def add(client, number, login, city):
    client.put({f"user/{number}": login, f"login/{login}": str(number)}, tags={f"user/{number}": city})


def rename(client, number, login):
    user = client.get(f"user/{number}")[f"user/{number}"]
    client.put({user.key: login, f"login/{user.value}": GONE, f"login/{login}": str(number)}, tags={user.key: user.tag})


def of_login(client, login):
    """The user of this login, or None. The index entry names the key; both are then read in one transaction, so that they agree."""
    entry = f"login/{login}"
    while number := client.get(entry)[entry].value:
        items = client.get(entry, f"user/{number}")
        if items[entry].value == number:
            return items[f"user/{number}"]
        # The login was given to another user between the two reads.
    return None


def main(url):
    with ramp_client.connect(url) as client:
        add(client, 1, "ada", "london")
        add(client, 2, "grace", "new_york")
        add(client, 3, "alan", "london")
        print("in london:", *sorted(item.value for item in client.find("london").values()))
        rename(client, 1, "lovelace")
        print("ada:", of_login(client, "ada"))
        print("lovelace:", of_login(client, "lovelace").key)
        assert of_login(client, "ada") is None and of_login(client, "lovelace").key == "user/1"
        assert [item.value for item in client.find("london").values()] == ["lovelace", "alan"]


if __name__ == "__main__":
    main(sys.argv[1])
