"""The parts of the programs in Python, which ask mxf_tool and never read a recording themselves.

What all of them do stands here: calls of mxf_tool (`calling`), their lines (`lines`), sources (`sources`), what can go wrong
(`faults`), how a program runs and ends (`running`), files (`files`), times (`moments`), timecodes (`timecodes`), which
package stands for a recording (`packages`), and when it is damaged or lacks parts (`standing`). `report` has the pages of
mxf_report, and `archive` the database of mxf_archive.
"""
