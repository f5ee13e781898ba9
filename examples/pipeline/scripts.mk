# Rules for make: NAME.checked is made from NAME.toml and its certificate, NAME.json or else NAME.certificate.json, if the check says yes; its text is that
# line. What depends on it isn't made if the check says no. A script is checked again once it or its certificate changes. If the answer isn't yes,
# NAME.checked is removed, and so it is if the script or its certificate no longer exists.
MGCALL = mgcall

define check_script
@{ cat $*.toml && echo && echo '%%' && cat $(word 2,$^); } | $(MGCALL) check > $@.new || { status=$$?; cat $@.new; rm -f $@.new $@; exit $$status; }
@mv $@.new $@
endef

%.checked: %.toml %.json
	$(check_script)

%.checked: %.toml %.certificate.json
	$(check_script)

certificates = $(wildcard $(1).json $(1).certificate.json)
$(foreach line,$(wildcard *.checked),$(if $(and $(wildcard $(line:.checked=.toml)),$(call certificates,$(line:.checked=))),,$(shell rm -f $(line))))
