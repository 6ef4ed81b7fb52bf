// An age from 18 to 120.
include "range.circom";

component main = AssertBetween(18, 120);
