runtime ftplugin/lam.lua
