// The stories that the page can start with. Two are those of examples/two-changes and examples/night-train; the region is the one
// that the Python package generates from the seed 3. Tests compare them with these.

export const stories = [
  {
    title: "A region of 112 events",
    told: "six lines with a timetable to make better",
    texts: {
      activities: `activity; from; to; lower; upper; weight
1; 1; 2; 16; 18; 138
2; 2; 3; 2; 6; 103
3; 3; 4; 10; 10; 116
4; 4; 5; 2; 6; 87
5; 5; 6; 11; 11; 95
6; 6; 7; 1; 4; 71
7; 7; 8; 9; 9; 127
8; 8; 9; 1; 3; 95
9; 9; 10; 10; 10; 93
10; 11; 12; 10; 10; 132
11; 12; 13; 1; 3; 99
12; 13; 14; 9; 11; 139
13; 14; 15; 2; 3; 104
14; 15; 16; 11; 11; 152
15; 16; 17; 2; 3; 114
16; 17; 18; 10; 12; 142
17; 18; 19; 1; 4; 106
18; 19; 20; 16; 16; 167
19; 10; 11; 6; 23; 10
20; 20; 1; 7; 18; 10
21; 21; 22; 11; 13; 83
22; 22; 23; 2; 3; 62
23; 23; 24; 12; 12; 94
24; 24; 25; 2; 3; 70
25; 25; 26; 15; 15; 65
26; 26; 27; 2; 5; 48
27; 27; 28; 10; 10; 62
28; 28; 29; 1; 4; 46
29; 29; 30; 8; 10; 65
30; 31; 32; 8; 9; 36
31; 32; 33; 2; 4; 27
32; 33; 34; 10; 11; 28
33; 34; 35; 1; 5; 21
34; 35; 36; 15; 15; 10
35; 36; 37; 2; 5; 7
36; 37; 38; 12; 13; 10
37; 38; 39; 2; 5; 7
38; 39; 40; 11; 12; 10
39; 30; 31; 6; 20; 10
40; 40; 21; 9; 22; 10
41; 41; 42; 11; 13; 34
42; 42; 43; 2; 4; 25
43; 43; 44; 9; 10; 41
44; 44; 45; 2; 4; 30
45; 45; 46; 15; 16; 40
46; 46; 47; 1; 5; 30
47; 47; 48; 12; 13; 39
48; 48; 49; 1; 4; 29
49; 49; 50; 11; 12; 39
50; 51; 52; 11; 13; 50
51; 52; 53; 1; 3; 37
52; 53; 54; 12; 13; 16
53; 54; 55; 1; 5; 12
54; 55; 56; 15; 17; 10
55; 56; 57; 2; 5; 7
56; 57; 58; 9; 11; 10
57; 58; 59; 2; 4; 7
58; 59; 60; 11; 11; 10
59; 50; 51; 9; 15; 10
60; 60; 41; 9; 19; 10
61; 61; 62; 15; 16; 111
62; 62; 63; 1; 3; 83
63; 63; 64; 12; 12; 103
64; 64; 65; 2; 4; 77
65; 65; 66; 11; 12; 105
66; 66; 67; 1; 2; 78
67; 67; 68; 9; 10; 76
68; 68; 69; 1; 2; 57
69; 69; 70; 11; 11; 49
70; 71; 72; 11; 12; 33
71; 72; 73; 2; 3; 24
72; 73; 74; 9; 9; 25
73; 74; 75; 1; 2; 18
74; 75; 76; 11; 12; 10
75; 76; 77; 1; 2; 7
76; 77; 78; 12; 14; 10
77; 78; 79; 2; 4; 7
78; 79; 80; 15; 17; 10
79; 70; 71; 7; 23; 10
80; 80; 61; 5; 32; 10
81; 81; 82; 16; 16; 30
82; 82; 83; 1; 2; 22
83; 83; 84; 10; 12; 42
84; 84; 85; 2; 4; 31
85; 85; 86; 11; 13; 76
86; 86; 87; 1; 4; 57
87; 87; 88; 9; 9; 43
88; 89; 90; 9; 11; 132
89; 90; 91; 2; 5; 99
90; 91; 92; 11; 13; 136
91; 92; 93; 1; 2; 102
92; 93; 94; 10; 10; 134
93; 94; 95; 2; 5; 100
94; 95; 96; 16; 17; 125
95; 88; 89; 6; 27; 10
96; 96; 81; 6; 48; 10
97; 97; 98; 16; 16; 44
98; 98; 99; 2; 6; 33
99; 99; 100; 11; 13; 40
100; 100; 101; 1; 3; 30
101; 101; 102; 10; 12; 32
102; 102; 103; 2; 3; 24
103; 103; 104; 8; 8; 44
104; 105; 106; 8; 8; 31
105; 106; 107; 1; 4; 23
106; 107; 108; 10; 11; 54
107; 108; 109; 2; 3; 40
108; 109; 110; 11; 13; 20
109; 110; 111; 1; 5; 15
110; 111; 112; 16; 16; 52
111; 104; 105; 8; 48; 10
112; 112; 97; 7; 33; 10
113; 46; 37; 5; 20; 38
114; 52; 77; 4; 38; 52
115; 108; 57; 5; 23; 58
116; 90; 51; 5; 36; 14
117; 34; 61; 3; 19; 16
118; 8; 69; 3; 14; 59
119; 26; 109; 4; 28; 53
120; 22; 65; 4; 33; 5
121; 50; 91; 4; 36; 49
122; 6; 75; 3; 38; 43
123; 100; 61; 3; 26; 47
124; 48; 65; 5; 27; 35
125; 78; 25; 3; 24; 13
126; 44; 35; 4; 29; 23
127; 36; 63; 3; 26; 25
128; 44; 61; 5; 29; 25
129; 72; 89; 3; 35; 59
130; 52; 23; 4; 38; 53
131; 86; 75; 3; 34; 21
132; 46; 63; 5; 40; 20
133; 94; 19; 5; 22; 33
134; 19; 95; 3; 57; 0
135; 47; 63; 3; 57; 0
136; 7; 67; 3; 57; 0
137; 1; 81; 3; 57; 0
138; 53; 77; 3; 57; 0
139; 81; 111; 3; 57; 0
140; 95; 97; 3; 57; 0
141; 55; 79; 3; 57; 0
142; 51; 75; 3; 57; 0
143; 15; 91; 3; 57; 0
144; 49; 65; 3; 57; 0
145; 73; 89; 3; 57; 0
`,
      times: `event; time
1; 28
2; 45
3; 49
4; 59
5; 5
6; 16
7; 20
8; 29
9; 32
10; 42
11; 2
12; 12
13; 13
14; 23
15; 25
16; 36
17; 39
18; 51
19; 54
20; 10
21; 29
22; 42
23; 45
24; 57
25; 0
26; 15
27; 19
28; 29
29; 33
30; 42
31; 1
32; 9
33; 11
34; 22
35; 23
36; 38
37; 40
38; 53
39; 57
40; 8
41; 46
42; 59
43; 2
44; 12
45; 16
46; 32
47; 36
48; 48
49; 49
50; 0
51; 14
52; 26
53; 27
54; 40
55; 44
56; 0
57; 4
58; 15
59; 19
60; 30
61; 41
62; 57
63; 0
64; 12
65; 15
66; 26
67; 28
68; 37
69; 38
70; 49
71; 8
72; 19
73; 21
74; 30
75; 31
76; 42
77; 44
78; 57
79; 59
80; 15
81; 35
82; 51
83; 52
84; 2
85; 6
86; 17
87; 21
88; 30
89; 54
90; 3
91; 8
92; 20
93; 22
94; 32
95; 36
96; 52
97; 40
98; 56
99; 2
100; 15
101; 16
102; 26
103; 28
104; 36
105; 20
106; 28
107; 30
108; 41
109; 43
110; 54
111; 55
112; 11
`,
      labels: `event;line;to;station;kind
1;R1;Inworth;Gorsley;departure
2;R1;Inworth;Dale;arrival
3;R1;Inworth;Dale;departure
4;R1;Inworth;Norwood;arrival
5;R1;Inworth;Norwood;departure
6;R1;Inworth;Kelby;arrival
7;R1;Inworth;Kelby;departure
8;R1;Inworth;Marden;arrival
9;R1;Inworth;Marden;departure
10;R1;Inworth;Inworth;arrival
11;R1;Gorsley;Inworth;departure
12;R1;Gorsley;Marden;arrival
13;R1;Gorsley;Marden;departure
14;R1;Gorsley;Kelby;arrival
15;R1;Gorsley;Kelby;departure
16;R1;Gorsley;Norwood;arrival
17;R1;Gorsley;Norwood;departure
18;R1;Gorsley;Dale;arrival
19;R1;Gorsley;Dale;departure
20;R1;Gorsley;Gorsley;arrival
21;R2;Hatton;Cranley;departure
22;R2;Hatton;Elmore;arrival
23;R2;Hatton;Elmore;departure
24;R2;Hatton;Jarrow;arrival
25;R2;Hatton;Jarrow;departure
26;R2;Hatton;Ashford;arrival
27;R2;Hatton;Ashford;departure
28;R2;Hatton;Oakham;arrival
29;R2;Hatton;Oakham;departure
30;R2;Hatton;Hatton;arrival
31;R2;Cranley;Hatton;departure
32;R2;Cranley;Oakham;arrival
33;R2;Cranley;Oakham;departure
34;R2;Cranley;Ashford;arrival
35;R2;Cranley;Ashford;departure
36;R2;Cranley;Jarrow;arrival
37;R2;Cranley;Jarrow;departure
38;R2;Cranley;Elmore;arrival
39;R2;Cranley;Elmore;departure
40;R2;Cranley;Cranley;arrival
41;R3;Kelby;Farley;departure
42;R3;Kelby;Linton;arrival
43;R3;Kelby;Linton;departure
44;R3;Kelby;Ashford;arrival
45;R3;Kelby;Ashford;departure
46;R3;Kelby;Jarrow;arrival
47;R3;Kelby;Jarrow;departure
48;R3;Kelby;Elmore;arrival
49;R3;Kelby;Elmore;departure
50;R3;Kelby;Kelby;arrival
51;R3;Farley;Kelby;departure
52;R3;Farley;Elmore;arrival
53;R3;Farley;Elmore;departure
54;R3;Farley;Jarrow;arrival
55;R3;Farley;Jarrow;departure
56;R3;Farley;Ashford;arrival
57;R3;Farley;Ashford;departure
58;R3;Farley;Linton;arrival
59;R3;Farley;Linton;departure
60;R3;Farley;Farley;arrival
61;R4;Benton;Ashford;departure
62;R4;Benton;Jarrow;arrival
63;R4;Benton;Jarrow;departure
64;R4;Benton;Elmore;arrival
65;R4;Benton;Elmore;departure
66;R4;Benton;Kelby;arrival
67;R4;Benton;Kelby;departure
68;R4;Benton;Marden;arrival
69;R4;Benton;Marden;departure
70;R4;Benton;Benton;arrival
71;R4;Ashford;Benton;departure
72;R4;Ashford;Marden;arrival
73;R4;Ashford;Marden;departure
74;R4;Ashford;Kelby;arrival
75;R4;Ashford;Kelby;departure
76;R4;Ashford;Elmore;arrival
77;R4;Ashford;Elmore;departure
78;R4;Ashford;Jarrow;arrival
79;R4;Ashford;Jarrow;departure
80;R4;Ashford;Ashford;arrival
81;R5;Marden;Gorsley;departure
82;R5;Marden;Dale;arrival
83;R5;Marden;Dale;departure
84;R5;Marden;Norwood;arrival
85;R5;Marden;Norwood;departure
86;R5;Marden;Kelby;arrival
87;R5;Marden;Kelby;departure
88;R5;Marden;Marden;arrival
89;R5;Gorsley;Marden;departure
90;R5;Gorsley;Kelby;arrival
91;R5;Gorsley;Kelby;departure
92;R5;Gorsley;Norwood;arrival
93;R5;Gorsley;Norwood;departure
94;R5;Gorsley;Dale;arrival
95;R5;Gorsley;Dale;departure
96;R5;Gorsley;Gorsley;arrival
97;R6;Hatton;Dale;departure
98;R6;Hatton;Gorsley;arrival
99;R6;Hatton;Gorsley;departure
100;R6;Hatton;Ashford;arrival
101;R6;Hatton;Ashford;departure
102;R6;Hatton;Oakham;arrival
103;R6;Hatton;Oakham;departure
104;R6;Hatton;Hatton;arrival
105;R6;Dale;Hatton;departure
106;R6;Dale;Oakham;arrival
107;R6;Dale;Oakham;departure
108;R6;Dale;Ashford;arrival
109;R6;Dale;Ashford;departure
110;R6;Dale;Gorsley;arrival
111;R6;Dale;Gorsley;departure
112;R6;Dale;Dale;arrival
activity;kind
1;run
2;dwell
3;run
4;dwell
5;run
6;dwell
7;run
8;dwell
9;run
10;run
11;dwell
12;run
13;dwell
14;run
15;dwell
16;run
17;dwell
18;run
19;turnaround
20;turnaround
21;run
22;dwell
23;run
24;dwell
25;run
26;dwell
27;run
28;dwell
29;run
30;run
31;dwell
32;run
33;dwell
34;run
35;dwell
36;run
37;dwell
38;run
39;turnaround
40;turnaround
41;run
42;dwell
43;run
44;dwell
45;run
46;dwell
47;run
48;dwell
49;run
50;run
51;dwell
52;run
53;dwell
54;run
55;dwell
56;run
57;dwell
58;run
59;turnaround
60;turnaround
61;run
62;dwell
63;run
64;dwell
65;run
66;dwell
67;run
68;dwell
69;run
70;run
71;dwell
72;run
73;dwell
74;run
75;dwell
76;run
77;dwell
78;run
79;turnaround
80;turnaround
81;run
82;dwell
83;run
84;dwell
85;run
86;dwell
87;run
88;run
89;dwell
90;run
91;dwell
92;run
93;dwell
94;run
95;turnaround
96;turnaround
97;run
98;dwell
99;run
100;dwell
101;run
102;dwell
103;run
104;run
105;dwell
106;run
107;dwell
108;run
109;dwell
110;run
111;turnaround
112;turnaround
113;change
114;change
115;change
116;change
117;change
118;change
119;change
120;change
121;change
122;change
123;change
124;change
125;change
126;change
127;change
128;change
129;change
130;change
131;change
132;change
133;change
134;headway
135;headway
136;headway
137;headway
138;headway
139;headway
140;headway
141;headway
142;headway
143;headway
144;headway
145;headway
`,
      places: `station; x; y
Ashford; 24; 33
Benton; 97; 26
Cranley; 68; 56
Dale; 60; 1
Elmore; 56; 37
Farley; 2; 3
Gorsley; 31; 13
Hatton; 0; 57
Inworth; 93; 54
Jarrow; 41; 57
Kelby; 72; 23
Linton; 7; 25
Marden; 80; 40
Norwood; 80; 2
Oakham; 9; 45
`,
      period: `period
60
`,
    },
  },
  {
    title: "Two changes at Benton",
    told: "no timetable meets it: why, and what mends it?",
    texts: {
      activities: `activity; from; to; lower; upper; weight
11; 1; 2; 24; 26; 120
12; 2; 3; 2; 5; 90
13; 3; 4; 31; 33; 70
21; 5; 6; 17; 18; 40
22; 7; 8; 17; 18; 40
31; 2; 5; 4; 8; 30
32; 8; 3; 4; 8; 15
41; 3; 5; 3; 57; 0
42; 6; 7; 6; 8; 10
`,
      fixed: `event; time
1; 3
`,
      labels: `event; line; to; station; kind
1; M; Cranley; Ashford; departure
2; M; Cranley; Benton; arrival
3; M; Cranley; Benton; departure
4; M; Cranley; Cranley; arrival
5; B; Dale; Benton; departure
6; B; Dale; Dale; arrival
7; B; Benton; Dale; departure
8; B; Benton; Benton; arrival
activity; kind
11; run
12; dwell
13; run
21; run
22; run
31; change
32; change
41; headway
42; turn
`,
      period: `period
60
`,
    },
  },
  {
    title: "A night train and a freight path",
    told: "a day of 1,440 minutes: when can the freight train go?",
    texts: {
      activities: `activity; from; to; lower; upper; weight
# the night train and the first train of the morning through the section
1; 1; 2; 38; 38; 20
2; 3; 4; 40; 40; 30
`,
      fixed: `event; time
1; 1421
2; 19
3; 330
4; 370
`,
      period: `period
1440
`,
      lines: `add event 5
add event 6
add activity 10 5 6 50 55 1
window 5 1410 71
window 6 0 91
add activity 11 1 5 8 1432 0
add activity 12 3 5 8 1432 0
add activity 13 2 6 8 1432 0
add activity 14 4 6 8 1432 0
`,
    },
  },
];
