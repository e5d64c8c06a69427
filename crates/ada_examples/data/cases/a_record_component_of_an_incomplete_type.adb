procedure Main is
type Part; type Node is record Value : Integer := 1; P : Part; end record;
type Part is record Value : Integer := 1; end record;
begin null; end Main;
