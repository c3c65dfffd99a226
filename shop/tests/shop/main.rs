// Tests of the shop's command: its usage, orders, also as spreadsheets write them, and their faults, the sample, plans
// replayed cut by cut from the document, the list and the drawing, filed plans, verdicts, and generated orders against
// an exhaustive search.
mod dialects;
mod drawings;
mod effort;
mod exhaustive;
mod faults;
mod filed;
mod generated;
mod orders;
mod outputs;
mod replay;
mod sample;
mod scratch;
mod sheets;
mod stock;
mod usage;
mod verdicts;
mod xml;
