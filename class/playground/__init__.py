"""What runs in the pages: the program as a module, the worker around it, and the playground."""
