procedure Main is type Cell is record Done : Boolean; end record; begin null; end Main;
