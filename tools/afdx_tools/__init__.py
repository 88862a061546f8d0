"""The tools around the program `afdx`. Each command of `commands` is a script of tools/ too."""
