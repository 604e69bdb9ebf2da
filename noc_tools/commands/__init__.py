"""The commands. Each has its help as its text, `add_arguments`, which says which words it takes, and `main`, which does
what they ask for and prints it. Where it returns a number, that is the status."""
