procedure Main is type Cell is record Value : Integer := Later; end record; Later : constant := 1; begin null; end Main;
