"""The help of the program, taken apart."""
import re
import subprocess


def help_of(program, *command):
    """The help of the program or of a command, its parts by their names; what stands first has none."""
    text = subprocess.run([program, *command, "--help"], capture_output=True, check=True, text=True).stdout
    parts, name = {"": []}, ""
    for line in text.splitlines():
        head = re.fullmatch(r"(Usage|Commands|Arguments|Options|Exit status|Examples?):(.*)", line)
        if head:
            name = head[1]
            parts[name] = [head[2].strip()] if head[2] else []
        else:
            parts[name].append(line)
    return parts


def commands_of(program):
    """The names of the commands, each with what the help says of it, without that of help itself."""
    lines = [it.strip().split(None, 1) for it in help_of(program)["Commands"] if it.strip()]
    return {name: said for name, said in lines if name != "help"}


def arguments_of(parts):
    """The arguments and options of a command, each as its name, its value's name or none, and what is said of it."""
    found = []
    for line in parts.get("Arguments", []) + parts["Options"]:
        if line.startswith("          "):
            found[-1][2] += line.strip()
        elif line.strip():
            name, _, value = re.sub(r"^-h, ", "", line.strip()).partition(" ")
            found.append([name, value.strip("<>") or None, ""])
    return found
