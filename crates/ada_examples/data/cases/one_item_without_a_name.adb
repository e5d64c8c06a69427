procedure Main is
type Cell is record Value : Integer := 0; end record;
type Ref is access Cell;
A : Ref := new Cell'(1);
begin null; end Main;
