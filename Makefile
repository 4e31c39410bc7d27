# make run JOB=FILE   prints the report of a job: a text for tools/camjob or a job file, told apart by what is in it
# make check-core CORE=FILE [QUICK=1] [OUT=FOLDER]   holds another core (.c, .rs or .a) to the rules; see tools/checkcore --help
# make fit            proves and builds the program for fitters, target/bin/camfit; see its --help
# make test           runs all tests

# The goals that there are, and the variables that each takes. Anything else on the command line is a slip, as JOBS=x is, and must not
# be passed over. Of the environment it cannot be told what is meant for us.
takes_run := JOB
takes_test :=
takes_fit :=
takes_check-core := CORE QUICK OUT

goals := $(or $(MAKECMDGOALS),run)
no_goals := $(strip $(foreach goal,$(goals),$(if $(filter undefined,$(origin takes_$(goal))),$(goal))))
ifneq ($(no_goals),)
$(error there is no goal $(no_goals). A file is given as JOB=FILE)
endif
taken := $(strip $(foreach goal,$(goals),$(takes_$(goal))))
given := $(foreach name,$(.VARIABLES),$(if $(filter command,$(origin $(name))),$(name)))
not_taken := $(strip $(filter-out $(taken),$(given)))
ifneq ($(not_taken),)
$(error make $(goals) takes $(or $(taken),no variable), and not $(not_taken))
endif

# A name is taken as it stands: `value` keeps make from expanding a `$` in it, and the shell has it from the environment only. make
# drops blanks at the front of a variable of the command line; `JOB=' x' make run` keeps them.
JOB ?= examples/listing.txt
unexport JOB
export job_file := $(value JOB)

.PHONY: run check-core fit test

run:
	@exec tools/run "$$job_file"

# The names as they stand, too.
unexport CORE OUT
check-core: export CALLED_FROM := $(value PWD)
check-core: export CHECKED_CORE := $(value CORE)
check-core: export CHECKED_OUT := $(value OUT)
check-core:
	@exec tools/checkcore $(if $(filter-out 0,$(QUICK)),--quick) --out="$$CHECKED_OUT" -- "$$CHECKED_CORE"

fit:
	@exec tools/build camfit

test:
	@bash .ci/run
