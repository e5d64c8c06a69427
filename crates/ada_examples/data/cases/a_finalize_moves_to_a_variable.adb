with Ada.Finalization; with Ada.Text_IO; with Ada.Unchecked_Deallocation;
procedure Main is
   type Node;
   type Link is access Node;
   type Node is record Value : Integer := 0; Next : Link; end record;
   type List is new Ada.Finalization.Limited_Controlled with record First : Link; Second : Link; end record;
   overriding procedure Finalize (Object : in out List);
   procedure Free is new Ada.Unchecked_Deallocation (Node, Link);
   overriding procedure Finalize (Object : in out List) is
      Held : Link;
      Rest : Link;
      Sum : Integer := 0;
   begin
      Held := Object.First;
      Object.First := null;
      if Held /= null then
         Sum := Held.Value;
         if Object.Second /= null then
            Sum := 10 * Sum + Object.Second.Value;
            Held.Next := Object.Second;
            Object.Second := null;
            Ada.Text_IO.Put_Line (Integer'Image (Held.Next.Value));
            Rest := Held.Next;
            Held.Next := null;
            Free (Rest);
         end if;
      end if;
      Ada.Text_IO.Put_Line (Integer'Image (Sum));
      Free (Held);
   exception
      when Constraint_Error => null;
   end Finalize;
   Empty : List;
   Both : List;
begin
   Both.First := new Node'(Value => 4, Next => null);
   Both.Second := new Node'(Value => 2, Next => null);
   declare
      One : List;
   begin
      One.First := new Node'(Value => 7, Next => null);
   end;
end Main;
