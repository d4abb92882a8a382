"""The exit statuses of the program, by the names in README's table. `scripts/manual` compares them with the program's own table."""

DONE, MISSING, USAGE, BAD_MANIFEST, BAD_SCRIPT, NO_CACHE, BAD_CACHE, NO_PROGRAM, BAD_PROGRAM, TOO_MANY = range(10)
STORE_FAULT, DISK_FAULT, INPUT_FAULT, OUTPUT_FAULT, NO_MEMORY, TOO_LONG, NO_MANIFEST, TOO_LARGE = range(10, 18)
BAD_LAYER = 19
NOT_STARTED = 20

# What the fault line has after `fault: `, or begins with there. The other statuses have no fault line.
FAULTS = {
    USAGE: "Usage", BAD_MANIFEST: "BadManifest", BAD_SCRIPT: "BadScript", NO_CACHE: "NoCache", BAD_CACHE: "BadCache", NO_PROGRAM: "NoProgram",
    BAD_PROGRAM: "BadProgram", TOO_MANY: "TooMany", STORE_FAULT: "StoreFault", DISK_FAULT: "DiskFault", INPUT_FAULT: "InputFault",
    TOO_LONG: "TooLong", NO_MANIFEST: "NoManifest", TOO_LARGE: "TooLarge",
    BAD_LAYER: "BadLayer",
}  # fmt: skip
