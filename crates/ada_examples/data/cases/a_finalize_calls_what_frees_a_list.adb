with Ada.Finalization; with Ada.Text_IO; with Ada.Unchecked_Deallocation;
procedure Main is
   type Node;
   type Link is access Node;
   type Node is record Value : Integer := 0; Next : Link; end record;
   type List is new Ada.Finalization.Limited_Controlled with record Head : Link; Count : Integer := 0; end record;
   overriding procedure Finalize (Object : in out List);
   procedure Free is new Ada.Unchecked_Deallocation (Node, Link);
   procedure Free_All (From : in out Link) is
      Rest : Link;
      Sum  : Integer := 0;
   begin
      while From /= null loop
         Sum := Sum + From.Value;
         declare
            Next : Link;
         begin
            Next := From.Next;
            From.Next := null;
            Free (From);
            Rest := Next;
         end;
         From := Rest;
         Rest := null;
      end loop;
      Ada.Text_IO.Put_Line (Integer'Image (Sum));
   end Free_All;
   overriding procedure Finalize (Object : in out List) is
      All_Of_It : Link;
   begin
      All_Of_It := Object.Head;
      Object.Head := null;
      Free_All (All_Of_It);
      Ada.Text_IO.Put_Line (Integer'Image (Object.Count));
   exception
      when Constraint_Error => Ada.Text_IO.Put_Line ("not reached");
   end Finalize;
   procedure Fill (L : in out List) is
   begin
      for I in 1 .. 4 loop
         L.Head := new Node'(Value => I, Next => L.Head);
         L.Count := L.Count + 1;
      end loop;
   end Fill;
   A : List;
begin
   Fill (A);
   declare
      B : List;
   begin
      Fill (B);
      B.Head.Value := 40;
      Ada.Text_IO.Put_Line ("filled");
   end;
end Main;
