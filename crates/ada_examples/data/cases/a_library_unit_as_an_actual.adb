with Ada.Unchecked_Deallocation; with Run_Input;
procedure Main is
type Node is record Value : Integer := 0; end record; type Link is access Node;
procedure Free is new Ada.Unchecked_Deallocation (Run_Input, Link);
begin null; end Main;
