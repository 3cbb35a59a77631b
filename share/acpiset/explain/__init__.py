"""What tools/explain is made of. Each module is about one thing: the image text, the tables in it, what a line is about, the
document with the texts, and the program that is asked. They need Python 3.9 or later and no other package."""
