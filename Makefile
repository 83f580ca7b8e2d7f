# Installs the program `ccq`, its manual page, and completions for bash, zsh and fish.
#
#   make install [PREFIX=/usr/local] [DESTDIR=]     the program of bin/x86_64-unknown-linux-gnu, which the gate proved
#   make uninstall [PREFIX=/usr/local] [DESTDIR=]
#
# The library for C has a Makefile of its own: bindings/c.
PREFIX ?= /usr/local
PROGRAM = bin/x86_64-unknown-linux-gnu/ccq
TO = $(DESTDIR)$(PREFIX)
# The files, by their paths in PREFIX.
PAGE = share/man/man1/ccq.1
BASH = share/bash-completion/completions/ccq
ZSH = share/zsh/site-functions/_ccq
FISH = share/fish/vendor_completions.d/ccq.fish

.PHONY: help install uninstall
help:
	@sed -n 's/^# \{0,1\}//p' Makefile

# PREFIX may have spaces.
install:
	install -D -m 755 $(PROGRAM) "$(TO)/bin/ccq"
	install -D -m 644 docs/ccq.1 "$(TO)/$(PAGE)"
	install -D -m 644 bin/completions/ccq.bash "$(TO)/$(BASH)"
	install -D -m 644 bin/completions/ccq.zsh "$(TO)/$(ZSH)"
	install -D -m 644 bin/completions/ccq.fish "$(TO)/$(FISH)"
	@case ":$$PATH:" in *":$(PREFIX)/bin:"*) ;; *) [ "$(DESTDIR)" ] || \
	  echo 'ccq is found with this line in ~/.profile: PATH="$(PREFIX)/bin:$$PATH"';; esac
	@case "$$SHELL:$(PREFIX)" in *zsh:/usr | *zsh:/usr/local) ;; *zsh:*) \
	  echo 'zsh looks there with this line in ~/.zshrc, before compinit:' \
	    'fpath=("$(PREFIX)/share/zsh/site-functions" $$fpath)';; \
	esac

uninstall:
	cd "$(TO)" && rm -f bin/ccq $(PAGE) $(BASH) $(ZSH) $(FISH)
