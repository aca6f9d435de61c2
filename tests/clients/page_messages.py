"""The messages of the browser page on errors: each error line that it can get, with the first sentence
that it shows, which says what to do with the ids and names of the plan. page_units compares them with
share/web/messages.js."""

# what the labels name: activity 3 has no name, resource 2 neither
LABELS = {"ids": {"2": "A", "3": "B", "4": "C"}, "names": {"2": "Excavation", "4": "Drains"},
          "resources": {"1": "crew"}, "count": 5, "lags": {"2-4": 7, "2-3": 0}}
SHOP = {"ids": {}, "names": {"1": "order 4711"}, "resources": {"0": "saw"}, "count": 9}
# a list in whose lines 3 and 4 the errors are
LIST = "id,name,duration,predecessors,crew\nA,Dig,2,,1\nB,\"Walls, north\",x,A,1\n7,,3,B,9\ncapacity,,,,2\n"
# another, from a German spreadsheet
GERMAN = "Nr.;Vorgangsname;Dauer;Maler\n1;W\u00e4nde;x;1\nKapazit\u00e4ten;;;2\n"

PROJECTS = [
    ("E10 F2 line 3", "Save the file as plain text in UTF-8."),
    ("E10 F3 line 40", "Add the missing line before the first section title, for example jobs : 6."),
    ("E10 F4 line 5", "Declare 1 project, and 0 resources of the two other kinds."),
    ("E10 F5 line 40", "Add the missing section, whose title begins a line, in capitals."),
    ("E10 F6 line 17", "Correct the number in line 17, or complete the line."),
    ("E10 F7 line 21", "Number the jobs 1, 2, 3 and so on, and name only such jobs as successors."),
    ("E10 F8 line 10", "Give each job one mode."),
    ("E10 F9 line 12", "Compare the counts in the file with its rows."),
    ("E10 F10 line 17", "Choose a coarser time unit, or split the project."),
    ("E10 F11 line 10", "Delete the successor that is twice in line 10."),
    ("E10 F12 line 7 cycle 2 4 3", "Delete one arc of the cycle A Excavation, C Drains, B."),
    ("E10 F13 line 40", "Choose another instance."),
    ("E10 F14 line 4", "Correct the number of the machine in line 4."),
    ("E11 S1 activity 4 resource 1", "Raise the capacity of crew, or lower what C Drains needs."),
    ("E11 S1 activity 3 resource 2", "Raise the capacity of resource 2, or lower what B needs."),
    ("E11 S5 too large", "Add the file of this plan below: then this page searches, for as long as you like."),
    ("S9 late", "Start the activities earlier, or use larger time units."),
    ("S10 activity 3 starts before 2 ends", "Start B later."),
    ("S10 at time 4 more of resource 1 is needed than there is",
     "Start an activity that needs crew at time 4 later."),
    ("F3 line 1 of the starts", "Save the start times as numbers, a table, CSV or JSON."),
    ("F6 line 2 of the starts", "Correct the number in line 2 of the start times."),
    ("F7 line 4 of the starts", "Give each activity one row, with its own id or number, duration and end."),
    ("F9 line 1 of the starts", "Give one start time for each activity or step, 5 in their order."),
    ("F10 line 1 of the starts", "Choose a coarser time unit."),
    ("E12 G1 date", "Choose a date from 1900-01-01 to 2199-12-31."),
    ("E12 G2 days", "Mark a working day."),
    ("E12 G3 beyond calendar", "Mark more working days, or choose a coarser time unit."),
    ("G5 line 2 date", "Correct line 2 of the holidays."),
    ("G6 holidays", "Delete the holidays before and after the schedule."),
    ("E01 key", "Check the name and the key, letter by letter."),
    ("E02 not found", "Look at the list of plans."),
    ("E03 body", "Check the values of this form."),
    ("E04 desk exists", "Choose another name, or give the desk a new key."),
    ("E05 code not published", "Ask the office to publish the code, or choose another one."),
    ("E06 kind differs", "Choose another code."),
    ("E07 other kind of plan", "Open a project."),
    ("E08 100 plans", "Delete a plan that nobody needs."),
    ("E09 numbers spent", "Ask the office for another desk."),
    ("E90 memory", "Try again, with fewer programs open."),
    ("E91 store", "Tell the office."),
]
SHOPS = [
    ("E11 S4 machine 0 closed", "Bind saw to another code under Changes, or ask the office to open it."),
    ("E11 S4 machine 1 closed", "Bind machine 1 to another code under Changes, or ask the office to open it."),
    ("S10 step 2 of job 1 starts before step 1 ends", "Start step 2 of order 4711 later."),
    ("S10 at time 3 more than one step is on machine 0", "Start a step on saw at time 3 later."),
]
LISTS = [
    ("T1 too long", "Delete rows, or split the list."),
    ("T2 not text line 3", "Save the list as CSV UTF-8, and delete line breaks in names."),
    ("T3 no column duration", "Write duration as the header of the column of durations."),
    ("T3 no column machine", "Delete all columns but order, machine and time."),
    ("T4 column crew twice", "Rename or delete one of the two columns crew."),
    ("T5 line 3 duration", "Write a whole number as the duration of B Walls, north (line 3)."),
    ("T6 line 4 id", "Give 7 (line 4) an id of at most 32 characters."),
    ("T7 line 3 id A twice", "Give B Walls, north (line 3) another id."),
    ("T8 line 3 predecessor F7", "Correct the predecessor F7 of B Walls, north (line 3), or add its row."),
    ("T8 line 3 predecessor 1SS", "Write another link in place of 1SS of B Walls, north (line 3), or split an activity."),
    ("T8 line 3 predecessor 12EA+3", "Write another link in place of 12EA+3 of B Walls, north (line 3), or split an activity."),
    ("T9 line 3 need crew", "Write a whole number as the need of B Walls, north (line 3) for crew."),
    ("T10 no capacity big crew", "Enter the capacity of big crew, or add a row whose id is capacity."),
    ("T11 cycle A C", "Delete one predecessor of the cycle A, C."),
    ("T12 limit line 0", "Add a row, choose a coarser time unit, or split the project."),
    ("T12 limit line 4", "Choose a coarser time unit, or split the project."),
    ("T13 line 3 cells", "Delete the extra cells of line 3, or close the quote that opens there."),
    ("T14 no resource crew", "Give the column crew its name again, or enter the capacities again."),
    ("T15 steps order 4711", "Merge steps of order 4711, or split the order."),
    ("T16 column Successors", "Give the predecessors of each row instead."),
    ("T17 line 4 begun", "Enter the present instant or date as Now."),
    ("T18 an Excel workbook: save it as CSV UTF-8", "Save its sheet as CSV (UTF-8), and drop that."),
    ("T19 line 4 need crew above 2", "Raise the capacity of crew, or lower what 7 (line 4) needs."),
    ("T20 line 3 number", "Write a whole number for each date and amount of B Walls, north (line 3), or enter the first date."),
    ("T21 line 4 dates", "Correct one of the dates of 7 (line 4), or delete it."),
    ("S11 crew 8", "Interrupt begun work, or move an appointment."),
    ("S12 no plan", "Move an appointment, raise a capacity, or shorten an absence."),
    ("S13 none found", "Search for longer."),
]
GERMANS = [
    ("T5 line 2 duration", "Write a whole number as the duration of 1 W\u00e4nde (line 2)."),
    ("T5 line 3 duration", "Write capacity in place of Kapazit\u00e4ten (line 3)."),
]
# what to do about the columns that a note names
IGNORED = [
    ("ignored columns: Site, Cost center", []),
    ("ignored columns: due, Site, earliest; read as Windows-1252", []),
    ("ignored columns: Active, Resource Names",
     ["To count the names in Resource Names, add a row with the id capacity, and write, for example, crew[3],digger there."]),
]
# verdicts of `plan check` on feasible start times
VERDICTS = [
    ("active", "Keep it, if you like."),
    ("activity 3 can start earlier", "Start B earlier, if you like."),
    ("activity 5 can start earlier", "Start the end earlier, if you like."),
]
SHOP_VERDICTS = [("step 2 of job 2 can start earlier", "Start step 2 of job 2 earlier, if you like.")]
# the words with which a first sentence begins
VERBS = ("Add Ask Bind Check Choose Close Compare Correct Declare Delete Drop Enter Give Interrupt Keep Look Mark "
         "Mend Merge Move Number Open Raise Reload Rename Save Search Set Split Start Tell Try Wait Write").split()
