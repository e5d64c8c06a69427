procedure Main is type Cell is record Value : Integer := True; end record; begin null; end Main;
