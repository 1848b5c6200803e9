"""The model by which checks/rules judges: written from docs/ alone, it shares nothing with the program."""
