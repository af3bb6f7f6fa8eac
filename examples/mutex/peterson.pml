/* The protocol of make.py in Promela, with the same steps; with -DBROKEN in the broken order.
 *
 *     spin -f '! ([] (flag0 -> <> enter0))' -run -a peterson.pml
 *
 * Each step of a process is one transition, and `last` tells which step was taken last. So in each state but the first
 * just one of the propositions below holds, the one that is named as the label of that step in peterson.ba.
 */
#define flag0	(last == 1)
#define flag1	(last == 2)
#define turn0	(last == 3)
#define turn1	(last == 4)
#define enter0	(last == 5)
#define enter1	(last == 6)
#define leave0	(last == 7)
#define leave1	(last == 8)

byte last = 0;
bit flag[2], turn = 0;

inline raise_flag() { d_step { flag[_pid] = 1; last = 1 + _pid } }
inline give_turn()  { d_step { turn = 1 - _pid; last = 3 + _pid } }

active [2] proctype process() {
	do
	::
#ifdef BROKEN
		give_turn(); raise_flag();
#else
		raise_flag(); give_turn();
#endif
		d_step { flag[1 - _pid] == 0 || turn == _pid; last = 5 + _pid };
		d_step { flag[_pid] = 0; last = 7 + _pid }
	od
}
