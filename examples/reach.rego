# Rules over what reach.py writes. Of the sample gateway each set is empty; of a report that joins parser and app, since
# command passes capabilities, `joined` has ["parser", "vault"] and `handed` has "app.command".
#
#     capfw audit gateway.json | reach.py > input.json
#     opa eval --input input.json --data reach.rego 'data.firmware'
package firmware

import rego.v1

outside := {"radio", "parser"}

# whoever sees what comes from the network may never come to use what the vault holds
joined contains [owner, "vault"] if {
	some owner in outside
	"vault" in input.reach[owner]
}

# calls from outside take plain data alone
handed contains name if {
	some entry in input.entries
	entry.kind == "export"
	entry.passes == "capabilities"
	name := sprintf("%s.%s", [entry.owner, entry.name])
	some caller in input.callers[name]
	caller in outside
}

# code in one compartment alone may come to write to the serial port
writers contains compartment if {
	some compartment, numbers in input.may
	some entry in input.entries
	entry.number in numbers
	entry.kind == "device"
	entry.of == "uart0"
	"SD" in split(entry.rights, " ")
	compartment != "logger"
}
