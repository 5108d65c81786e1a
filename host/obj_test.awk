# Holds an OBJ file to the level that it should be: so many vertices, edges and faces; V - E + F of a sphere; each edge
# once in either direction; a volume above 0, so that the faces turn counter-clockwise as seen from outside. Where
# `volume` is given it is that, in cubic millimetres. Ends with 1 after saying what is wrong.
#
#   awk -v name=NAME -v vertices=V -v edges=E -v faces=F -v turn=clockwise|counter-clockwise [-v volume=NUMBER] \
#       -f host/obj_test.awk FILE

function wrong(what) {
    print "obj_test: " name ": " what
    failed = 1
    exit 1
}

function edge(from, to) {
    if ((from, to) in directed) wrong("edge " from ", " to " comes twice in one direction")
    directed[from, to] = 1
    if (!((to, from) in directed)) edge_count++
    used[from] = 1
}

/^#/ { turns = index($0, "the rings turn " turn " ") > 0 }
/^v / { x[++v] = $2; y[v] = $3; z[v] = $4 }
/^f / {
    f++
    for (i = 2; i <= 4; i++) if ($i < 1 || $i > v || NF != 4) wrong("face " f " is not three of the vertices")
    edge($2, $3); edge($3, $4); edge($4, $2)
    enclosed += (x[$2] * (y[$3] * z[$4] - z[$3] * y[$4]) + y[$2] * (z[$3] * x[$4] - x[$3] * z[$4]) + \
                 z[$2] * (x[$3] * y[$4] - y[$3] * x[$4])) / 6
}

END {
    if (failed) exit 1
    if (v != vertices || f != faces) wrong(v " vertices and " f " faces, not " vertices " and " faces)
    for (i = 1; i <= v; i++) if (!(i in used)) wrong("vertex " i " has no face")
    for (pair in directed) {
        split(pair, ends, SUBSEP)
        if (!((ends[2], ends[1]) in directed)) wrong("edge " ends[1] ", " ends[2] " has a face on one side only")
    }
    if (edge_count != edges) wrong(edge_count " edges, not " edges)
    if (v - edge_count + f != 2) wrong("V - E + F is " v - edge_count + f)
    if (!turns) wrong("it does not say that the rings turn " turn)
    if (!(enclosed > 0)) wrong("the volume is " enclosed ": its faces turn clockwise")
    if (volume && (enclosed > 1.000001 * volume || enclosed < 0.999999 * volume)) wrong("the volume is " enclosed)
}
