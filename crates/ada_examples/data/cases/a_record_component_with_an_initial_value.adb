procedure Main is
type Part is record Value : Integer := 1; end record;
type Node is record P : Part := 1; end record;
begin null; end Main;
