# make -f night.mk -j 8 PLAN=big.plan [CORES=8]
#     Runs big.plan in parts, 8 at once, into the folder big.parts, and joins them to big.listing.
#     Called again it runs the parts that are not there, and no others (docs/NIGHT.md).
#     CORES is what the plan is cut for, all of this machine by default: keep it when resuming.
# Needs sweep-cut, sweep-part and sweep-join (in a clone: CUT=night/cut PART=night/part
# JOIN=night/join). Ends like make, with 0 where big.listing is there. No blanks in PLAN.
CUT  ?= sweep-cut
PART ?= sweep-part
JOIN ?= sweep-join

name  := $(basename $(PLAN))
cut   := $(shell $(CUT) $(PLAN) $(CORES) | tr '\t' :)
# The last part may be shorter; sweep-part knows where the plan ends.
count := $(lastword $(subst :, ,$(firstword $(cut))))
parts := $(foreach line,$(cut),$(name).parts/$(firstword $(subst :, ,$(line))))
$(if $(parts),,$(error PLAN=$(PLAN) has no cut))

# By another name first: what was stopped must not stand there as a listing.
$(name).listing: $(parts)
	$(JOIN) $(PLAN) $(name).parts >$@.new && sync $@.new && mv $@.new $@

$(parts): $(PLAN)
	$(PART) $(PLAN) $(@F) $(count) $(@D)

.DELETE_ON_ERROR:
