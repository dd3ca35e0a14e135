"""What is right for every run of a module: questions to the program `estlab`, and their answers."""
