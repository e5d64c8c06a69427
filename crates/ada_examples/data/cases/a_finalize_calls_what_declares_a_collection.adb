with Ada.Finalization; with Ada.Text_IO; with Ada.Unchecked_Deallocation;
procedure Main is
   type Node;
   type Link is access Node;
   type Node is record Value : Integer := 0; Next : Link; end record;
   type List is new Ada.Finalization.Limited_Controlled with record Head : Link; Count : Integer := 0; end record;
   overriding procedure Finalize (Object : in out List);
   procedure Free is new Ada.Unchecked_Deallocation (Node, Link);
   procedure Drop (L : in out Link) is
      type Spare is access Node;
      S : Spare;
   begin
      Free (L);
   end Drop;
   overriding procedure Finalize (Object : in out List) is
      Mine : Link;
   begin
      Mine := Object.Head;
      Object.Head := null;
      Drop (Mine);
   end Finalize;
   A : List;
begin
   A.Head := new Node;
   Ada.Text_IO.Put_Line ("never");
end Main;
