"""The command `karzhoul`: its words, what each part of it prints, and its prompt. What the parts
do is in the other packages, none of which knows of this one."""
