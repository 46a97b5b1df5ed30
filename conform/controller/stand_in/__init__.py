"""A controller in plain Python, written from the text of the standards and not from the model: a second opinion."""
