"""What tools/report needs beside itself if it is given files: image text that is made of them, and what acpiset says of it. It needs
Python 3.9 or later, the package `explain`, and no other one."""
