"""What the scripts that work out constants of tests have in common: lines such as `const NAME: u64 = 7;` of a file are compared."""
import re


def differ(path, computed):
    """Compares constants of a file with those that were computed, by their names; tells each difference, and whether there is one."""
    with open(path, encoding="utf-8") as file:
        text = file.read()
    wrong = []
    for name, number in computed.items():
        found = re.search(rf"^const {name}: \w+ = (\w+);$", text, re.M)
        if not found or found.group(1) != str(number):
            wrong.append(f"{name} is {number}, and {found.group(1) if found else 'nothing'} in the file")
    print(*wrong, f"{len(computed)} constants, {len(wrong)} differ", sep="\n")
    return bool(wrong)
