# What the kit's compiler is given by rt, for the two checks of tests/ that no command of rt makes.
kit=$(rt doc)
kit=$(dirname "$kit")
rattle=$kit/bin/rattle
std=(--extern "std=$kit/rlibs/std.rlib" -L "dependency=$kit/rlibs")
logic=(--antt-project "$kit/rattle/logic/antt-project.json" --logic-built "$kit/logic_built")
