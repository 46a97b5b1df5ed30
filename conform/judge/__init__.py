"""The same scripts on the model and on an emulator, compared after each line."""
