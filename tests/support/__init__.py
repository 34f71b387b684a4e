"""What the tests share: the program, a server, rows, requests, and a case with a folder."""
