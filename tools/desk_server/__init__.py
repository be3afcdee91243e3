"""The server of the desk (`tools/desk`): a page for one clerk, in front of an office that is served on
this machine."""
