" Colours for world documents of lam. Made by tools/editor/make.py.
runtime! syntax/json.vim
