procedure Main is
type Part is record Value : Integer := 1; end record;
type Node is record P : Part; Q : Parts; end record;
begin null; end Main;
